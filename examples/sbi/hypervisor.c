/* A hypervisor that gives one guest in VS what firmware gives a kernel: the SBI, a device tree, and RAM. The
   kernel lies in the image, one block behind the hypervisor, and runs where it lies. */
#include "machine.h"

#define TABLE 0x01 /* of an entry: V, a pointer to a table */
#define LEAF 0xDF  /* V, R, W, X, U, A and D */
#define SV39X4 (8UL << 60)
#define TREE_BYTES 0x1000UL

#define SPP 0x100UL /* of sstatus and vsstatus: the mode of the trap was S, not U */
#define SPIE 0x20UL
#define SIE 0x02UL
#define SPV 0x80 /* of hstatus: SRET goes to V = 1 */
#define TIME 2   /* of hcounteren and scounteren: the clock may be read */

#define DELEGATED 0xB1FF /* exceptions 0 to 8, 12, 13 and 15, which a kernel takes itself on any machine */

#define INTERRUPT (1UL << 63)
#define TIMER 5
#define FETCH_FAULT 1
#define ILLEGAL 2
#define LOAD_FAULT 5
#define STORE_FAULT 7
#define ECALL_FROM_VS 10
#define FETCH_GUEST_PAGE_FAULT 20
#define LOAD_GUEST_PAGE_FAULT 21
#define VIRTUAL_INSTRUCTION 22
#define STORE_GUEST_PAGE_FAULT 23

#define READ(name)                                          \
    ({                                                      \
        uint64_t value_;                                    \
        __asm__ volatile("csrr %0, " name : "=r"(value_));  \
        value_;                                             \
    })
#define WRITE(name, value) __asm__ volatile("csrw " name ", %0" : : "r"((uint64_t)(value)) : "memory")
#define SET(name, bits) __asm__ volatile("csrs " name ", %0" : : "r"((uint64_t)(bits)) : "memory")
#define CLEAR(name, bits) __asm__ volatile("csrc " name ", %0" : : "r"((uint64_t)(bits)) : "memory")

/* The second-stage tables (Sv39x4): the root has 2,048 entries. */
static uint64_t root[2048] __attribute__((aligned(16384)));
static uint64_t middle[512] __attribute__((aligned(4096)));

struct context guest;
uint64_t guest_end;

/* Whether there is RAM at an address: a load from it does not trap. */
static bool has_memory(uint64_t address)
{
    uint64_t there = 0, kept;
    __asm__ volatile("la %1, 1f\n csrrw %1, stvec, %1\n lb zero, 0(%2)\n li %0, 1\n .balign 4\n"
                     "1: csrw stvec, %1"
                     : "+&r"(there), "=&r"(kept)
                     : "r"(address));
    return there != 0;
}

/* Maps the RAM behind the hypervisor to the guest, each block to itself. */
static void map_memory(void)
{
    for (guest_end = GUEST_RAM; has_memory(guest_end); guest_end += BLOCK)
        middle[guest_end >> 21 & 511] = guest_end >> 2 | LEAF;
    root[GUEST_RAM >> 30] = (uint64_t)middle >> 2 | TABLE;
    WRITE("hgatp", SV39X4 | (uint64_t)root >> 12);
    __asm__ volatile(".insn r 0x73, 0, 0x31, x0, x0, x0" : : : "memory"); /* HFENCE.GVMA */
}

/* The guest takes the exception that the hardware would raise where there is no hypervisor. */
static void raise(uint64_t cause, uint64_t value)
{
    uint64_t status = READ("vsstatus");
    uint64_t raised = status & ~(SPP | SPIE | SIE);
    if ((READ("sstatus") & SPP) != 0)
        raised |= SPP;
    if ((status & SIE) != 0)
        raised |= SPIE;
    WRITE("vsstatus", raised);
    WRITE("vscause", cause);
    WRITE("vstval", value);
    WRITE("vsepc", guest.registers[0]);
    guest.registers[0] = READ("vstvec") & ~3UL;
    SET("sstatus", SPP);
}

static void handle(void)
{
    uint64_t value = READ("stval");
    switch (READ("scause")) {
    case INTERRUPT | TIMER: /* is the guest's from now on, until it sets the next one */
        CLEAR("sie", STIP);
        SET("hvip", VSTIP);
        break;
    case ECALL_FROM_VS:
        guest.registers[0] += 4;
        answer();
        break;
    case VIRTUAL_INSTRUCTION:
        raise(ILLEGAL, value);
        break;
    case FETCH_GUEST_PAGE_FAULT: /* outside its RAM */
        raise(FETCH_FAULT, value);
        break;
    case LOAD_GUEST_PAGE_FAULT:
        raise(LOAD_FAULT, value);
        break;
    case STORE_GUEST_PAGE_FAULT:
        raise(STORE_FAULT, value);
        break;
    default:
        show_trap();
    }
}

int main(void)
{
    map_memory();
    write_tree(guest_end - TREE_BYTES);
    WRITE("hedeleg", DELEGATED);
    WRITE("hideleg", VSSIP | VSTIP | VSEIP);
    WRITE("hcounteren", TIME);
    WRITE("scounteren", TIME);
    guest.registers[0] = GUEST_RAM;
    guest.registers[A0] = 0; /* the hart */
    guest.registers[A1] = guest_end - TREE_BYTES;
    SET("sstatus", SPP);
    SET("hstatus", SPV); /* each trap of the guest sets it again */
    for (;;) {
        run(&guest);
        handle();
    }
}
