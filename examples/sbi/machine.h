/* What the parts of this hypervisor share: its guest, the environment's calls, and the places of RAM. */
#include <stdbool.h>
#include <stdint.h>

#define BLOCK 0x200000UL            /* what a leaf of level 1 maps */
#define GUEST_RAM 0x80200000UL      /* physical and guest physical, behind the hypervisor's block */
#define ARGUMENTS ((const char *)(GUEST_RAM - 0x1000)) /* the text that the guest's kernel gets */

#define STIP (1UL << 5)             /* of sie and sip: the hypervisor's own timer */
#define VSSIP (1UL << 2)            /* of hvip: the interrupts of the guest */
#define VSTIP (1UL << 6)
#define VSEIP (1UL << 10)

/* The calls of the environment. Each has the number that it has in the legacy part of the SBI. */
#define SET_TIMER 0
#define PUT 1
#define GET 2
#define STOP 8

/* What the hypervisor has of its guest: register i at place i, and pc at place 0. */
struct context {
    uint64_t registers[32];
};

enum { A0 = 10, A1 = 11, A2 = 12, A3 = 13, A6 = 16, A7 = 17 };

extern struct context guest;
extern uint64_t guest_end; /* the address behind the guest's RAM */

void run(struct context *guest);  /* examples/device/context.s: runs the guest until it traps */
void exit(long verdict);          /* examples/c/start.s: stops the machine */
void show_trap(void);             /* examples/traps/handler.s: prints why the guest trapped, and stops */
void answer(void);                /* sbi.c: a call of the SBI */
void write_tree(uint64_t place);  /* tree.c: the device tree */

static inline long environment(long number, uint64_t argument)
{
    register uint64_t a0 __asm__("a0") = argument;
    register long a7 __asm__("a7") = number;
    __asm__ volatile("ecall" : "+r"(a0) : "r"(a7) : "a1", "memory");
    return (long)a0;
}
