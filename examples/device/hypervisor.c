/* A hypervisor whose guest is the kernel of kernel.c, which drives the device page. With HANDED it maps the page to its
   guest, by one leaf, and has no part in what the guest does there. Without, it keeps the page: each access is a
   guest-page fault, and the hypervisor makes it for the guest. */
#include <stdint.h>
#include "device.h"

#define GUEST_AT 0x80000000UL  /* guest physical: where the kernel begins */
#define GUEST_RAM 0x80100000UL /* physical: where its RAM is */
#define GUEST_PAGES 256
#define PAGE 4096UL

#define TABLE 0x01 /* of an entry: V, a pointer to a table */
#define LEAF 0xDF  /* V, R, W, X, U, A and D */
#define DEVICE_LEAF 0xD7 /* without X */
#define SV39X4 (8UL << 60)

#define SPP 0x100 /* of sstatus: SRET goes to VS, not to VU */
#define SPV 0x80  /* of hstatus: and with V = 1 */

#define ECALL_FROM_VS 10
#define LOAD_GUEST_PAGE_FAULT 21
#define STORE_GUEST_PAGE_FAULT 23
#define STOP 8 /* the call that stops a machine */

/* What the hypervisor has of its guest: register i at place i, and pc at place 0. */
struct context {
    uint64_t registers[32];
};

void run(struct context *guest); /* context.s: runs the guest until it traps */
extern const uint8_t image[];    /* context.s: device.bin, and its end */
extern const uint8_t image_end[];
void show_trap(void);            /* examples/traps/handler.s: prints why a guest trapped, and stops it */

/* The second-stage tables (Sv39x4): the root has 2,048 entries. */
static uint64_t root[2048] __attribute__((aligned(16384)));
static uint64_t middle[2][512] __attribute__((aligned(4096)));
static uint64_t low[2][512] __attribute__((aligned(4096)));

static struct context guest;

static uint64_t entry_to(const void *table)
{
    return (uint64_t)table >> 2 | TABLE;
}

/* Maps a page of guest physical addresses to a frame, by the tables `which`. */
static void map(int which, uint64_t address, uint64_t frame, uint64_t flags)
{
    root[address >> 30] = entry_to(middle[which]);
    middle[which][address >> 21 & 511] = entry_to(low[which]);
    low[which][address >> 12 & 511] = frame >> 2 | flags;
}

/* The instruction at pc, which the guest may execute (HLVX.WU). */
static uint32_t word_at(uint64_t pc)
{
    uint64_t word;
    __asm__ volatile(".insn r 0x73, 4, 0x34, %0, %1, x3" : "=r"(word) : "r"(pc));
    return (uint32_t)word;
}

/* A load or a store of the device page, by the word of the instruction that made it. */
static void emulate(uint64_t address, uint32_t word)
{
    uint64_t *to = &guest.registers[word >> 7 & 31];
    uint64_t from = guest.registers[word >> 20 & 31];
    uint64_t value;
    switch (word & 0x707F) {
    case 0x4003: /* LBU */
        value = *(volatile uint8_t *)address;
        break;
    case 0x3003: /* LD */
        value = *(volatile uint64_t *)address;
        break;
    case 0x0023: /* SB */
        *(volatile uint8_t *)address = (uint8_t)from;
        guest.registers[0] += 4;
        return;
    default:
        show_trap();
        return;
    }
    if ((word >> 7 & 31) != 0)
        *to = value;
    guest.registers[0] += 4;
}

static void handle(void)
{
    uint64_t cause, page, address;
    __asm__ volatile("csrr %0, scause" : "=r"(cause));
    __asm__ volatile("csrr %0, stval" : "=r"(address));
    __asm__ volatile("csrr %0, htval" : "=r"(page)); /* the guest physical address, shifted right by 2 */
    page = page << 2 & -PAGE;
    if (cause != LOAD_GUEST_PAGE_FAULT && cause != STORE_GUEST_PAGE_FAULT)
        show_trap();
    if (page != DEVICE_PAGE)
        show_trap();
    emulate(DEVICE_PAGE + address % PAGE, word_at(guest.registers[0]));
}

/* Whether the guest has called the environment to stop. */
static int has_ended(void)
{
    uint64_t cause;
    __asm__ volatile("csrr %0, scause" : "=r"(cause));
    return cause == ECALL_FROM_VS && guest.registers[17] == STOP;
}

int main(void)
{
    for (const uint8_t *byte = image; byte < image_end; byte++)
        *(uint8_t *)(GUEST_RAM + (uint64_t)(byte - image)) = *byte;
    for (uint64_t page = 0; page < GUEST_PAGES; page++)
        map(0, GUEST_AT + page * PAGE, GUEST_RAM + page * PAGE, LEAF);
#ifdef HANDED
    map(1, DEVICE_PAGE, DEVICE_PAGE, DEVICE_LEAF);
#endif
    __asm__ volatile("csrw hgatp, %0" : : "r"(SV39X4 | (uint64_t)root >> 12));
    __asm__ volatile(".insn r 0x73, 0, 0x31, x0, x0, x0" : : : "memory");       /* HFENCE.GVMA */
    guest.registers[0] = GUEST_AT;
    for (;;) {
        __asm__ volatile("csrs sstatus, %0" : : "r"(SPP));
        __asm__ volatile("csrs hstatus, %0" : : "r"(SPV));
        run(&guest);
        if (has_ended())
            return 0;
        handle();
    }
}
