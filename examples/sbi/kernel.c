/* A kernel in VS that makes each call of the SBI, and prints what came of it. It knows nothing of nesthv: its
   console is DBCN, its arguments and RAM are those of the device tree. */
#include <stdbool.h>
#include <stdint.h>

#define PERIOD 2000
#define SOFTWARE 1 /* interrupts */
#define TIMER 5
#define INTERRUPT (1UL << 63)
#define SIE 2 /* of sstatus */

enum {
    BASE = 0x10,
    TIME = 0x54494D45,
    IPI = 0x735049,
    RFENCE = 0x52464E43,
    HSM = 0x48534D,
    DBCN = 0x4442434E,
    SRST = 0x53525354,
    PMU = 0x504D55, /* the one that is not there */
};

struct answer {
    long error;
    long value;
};

static volatile unsigned software, ticks, faults;
static volatile uint64_t fault_at;

static struct answer call(long extension, long function, uint64_t first, uint64_t second, uint64_t third)
{
    register uint64_t a0 __asm__("a0") = first;
    register uint64_t a1 __asm__("a1") = second;
    register uint64_t a2 __asm__("a2") = third;
    register long a6 __asm__("a6") = function;
    register long a7 __asm__("a7") = extension;
    __asm__ volatile("ecall" : "+r"(a0), "+r"(a1) : "r"(a2), "r"(a6), "r"(a7) : "memory");
    return (struct answer){(long)a0, (long)a1};
}

static uint64_t length(const char *text)
{
    uint64_t bytes = 0;
    while (text[bytes] != '\0')
        bytes++;
    return bytes;
}

static void put_text(const char *text)
{
    call(DBCN, 0, length(text), (uint64_t)text, 0);
}

static void put_number(long number)
{
    if (number < 0) {
        put_text("-");
        number = -number;
    }
    if (number >= 10)
        put_number(number / 10);
    call(DBCN, 2, (uint64_t)('0' + number % 10), 0, 0);
}

static void put_named(const char *name, long number)
{
    put_text(name);
    put_number(number);
}

/* The interrupts are taken as they come; a fault goes on behind its instruction. */
__attribute__((interrupt("supervisor"), aligned(4))) static void on_trap(void)
{
    uint64_t cause, pc;
    __asm__ volatile("csrr %0, scause" : "=r"(cause));
    if (cause == (INTERRUPT | SOFTWARE)) {
        __asm__ volatile("csrc sip, %0" : : "r"(1UL << SOFTWARE));
        software++;
    } else if (cause == (INTERRUPT | TIMER)) {
        ticks++;
        call(TIME, 0, ~0UL, 0, 0);
    } else {
        __asm__ volatile("csrr %0, stval" : "=r"(fault_at));
        __asm__ volatile("csrr %0, sepc" : "=r"(pc));
        __asm__ volatile("csrw sepc, %0" : : "r"(pc + 4));
        faults = faults * 100 + (unsigned)cause;
    }
}

static uint32_t word(const uint8_t *place)
{
    return (uint32_t)place[0] << 24 | (uint32_t)place[1] << 16 | (uint32_t)place[2] << 8 | place[3];
}

static bool is_same(const char *one, const char *other)
{
    while (*one == *other && *one != '\0') {
        one++;
        other++;
    }
    return *one == *other;
}

/* The value of the last property of this name, in a flattened device tree. */
static const uint8_t *property(const uint8_t *tree, const char *name)
{
    const uint8_t *at = tree + word(tree + 8), *found = 0;
    for (;;) {
        switch (word(at)) {
        case 1: /* a node and its name */
            at += 4 + ((length((const char *)at + 4) + 4) & ~3UL);
            break;
        case 3: /* a property: bytes, name, value */
            if (is_same((const char *)tree + word(tree + 12) + word(at + 8), name))
                found = at + 12;
            at += 12 + ((word(at + 4) + 3) & ~3U);
            break;
        case 9:
            return found;
        default:
            at += 4;
        }
    }
}

static void show_tree(const uint8_t *tree)
{
    const uint8_t *memory = property(tree, "reg");
    put_text("tree: ");
    put_text((const char *)property(tree, "riscv,isa"));
    put_named(", RAM ", (long)(word(memory + 12) >> 20));
    put_named(" MiB from MiB ", (long)(word(memory + 4) >> 20));
    put_text(", arguments ");
    put_text((const char *)property(tree, "bootargs"));
}

static void show_base(void)
{
    static const int extensions[] = {BASE, TIME, IPI, RFENCE, HSM, DBCN, SRST, PMU};
    put_named("\nbase: SBI ", call(BASE, 0, 0, 0, 0).value >> 24);
    put_text(", has");
    for (unsigned i = 0; i < sizeof extensions / sizeof *extensions; i++)
        put_named(" ", call(BASE, 3, (uint64_t)extensions[i], 0, 0).value);
    put_named(", vendor ", call(BASE, 4, 0, 0, 0).value);
    put_named(", no function ", call(BASE, 7, 0, 0, 0).error);
    put_named(", no extension ", call(PMU, 0, 0, 0, 0).error);
}

static uint64_t now(void)
{
    uint64_t time;
    __asm__ volatile("csrr %0, time" : "=r"(time));
    return time;
}

/* Sleeps until the timer has come: WFI wakes though SIE is clear, and the interrupt is taken at `csrsi`. */
static void show_timer(void)
{
    uint64_t moment = now() + PERIOD;
    call(TIME, 0, moment, 0, 0);
    while (ticks == 0) {
        __asm__ volatile("wfi" : : : "memory");
        __asm__ volatile("csrsi sstatus, %0\n csrci sstatus, %0" : : "i"(SIE) : "memory");
    }
    put_named("\ntime: ticks ", ticks);
    put_text(now() >= moment ? ", in time" : ", early");
    call(TIME, 0, now() + PERIOD, 0, 0);
    put_named(", suspended ", call(HSM, 3, 0, 0, 0).error);
    __asm__ volatile("csrsi sstatus, %0\n csrci sstatus, %0" : : "i"(SIE) : "memory");
    put_named(", ticks ", ticks);
}

static void show_interrupt(void)
{
    put_named("\nipi: ", call(IPI, 0, 1, 0, 0).error);
    __asm__ volatile("csrsi sstatus, %0\n csrci sstatus, %0" : : "i"(SIE) : "memory");
    put_named(", taken ", software);
    put_named(", hart 1 ", call(IPI, 0, 2, 0, 0).error);
    call(IPI, 0, 0, ~0UL, 0);
    __asm__ volatile("csrsi sstatus, %0\n csrci sstatus, %0" : : "i"(SIE) : "memory");
    put_named(", all ", software);
}

static uint64_t root[512] __attribute__((aligned(4096)));
static uint64_t middle[512] __attribute__((aligned(4096)));
static uint64_t low[512] __attribute__((aligned(4096)));
static char pages[2][4096] __attribute__((aligned(4096)));

static void map(const char *page)
{
    low[0] = (uint64_t)page >> 2 | 0xC7; /* V, R, W, A, D */
}

/* Under Sv39 a page at 1 GiB is moved from one frame to another. Before the fence the machine still has the
   old one. */
static void show_fence(void)
{
    volatile char *moved = (volatile char *)(1UL << 30);
    pages[0][0] = 'o';
    pages[1][0] = 'n';
    root[2] = 0x80000000UL >> 2 | 0xCF; /* the kernel, at its own addresses */
    root[1] = (uint64_t)middle >> 2 | 1;
    middle[0] = (uint64_t)low >> 2 | 1;
    map(pages[0]);
    __asm__ volatile("csrw satp, %0\n sfence.vma" : : "r"(8UL << 60 | (uint64_t)root >> 12) : "memory");
    put_text("\nrfence: ");
    call(DBCN, 2, (uint64_t)*moved, 0, 0);
    map(pages[1]);
    call(DBCN, 2, (uint64_t)*moved, 0, 0);
    put_named(" ", call(RFENCE, 1, 1, 0, 1UL << 30).error);
    put_text(" ");
    call(DBCN, 2, (uint64_t)*moved, 0, 0);
    put_named(", code ", call(RFENCE, 0, 0, ~0UL, 0).error);
    put_named(", hart 1 ", call(RFENCE, 1, 2, 0, 0).error);
    put_named(", of hypervisors ", call(RFENCE, 4, 1, 0, 0).error);
    __asm__ volatile("csrw satp, zero\n sfence.vma" : : : "memory");
}

static void show_harts(void)
{
    put_named("\nhsm: hart 0 ", call(HSM, 2, 0, 0, 0).value);
    put_named(", start it ", call(HSM, 0, 0, 0, 0).error);
    put_named(", hart 1 ", call(HSM, 0, 1, 0, 0).error);
    put_named(", deep sleep ", call(HSM, 3, 0x80000000UL, 0, 0).error);
}

static void show_console(void)
{
    char bytes[8];
    struct answer read = call(DBCN, 1, sizeof bytes, (uint64_t)bytes, 0);
    put_named("\nconsole: read ", read.value);
    put_text(" ");
    put_named(", wrote ", call(DBCN, 0, (uint64_t)read.value, (uint64_t)bytes, 0).value);
    put_named(", outside RAM ", call(DBCN, 0, 1, 0x80000000UL, 0).error);
    put_text(", legacy ");
    for (long byte; (byte = call(2, 0, 0, 0, 0).error) >= 0;)
        call(1, 0, (uint64_t)byte, 0, 0);
}

/* What is the machine's below a hypervisor, and not the kernel's: as where there is none. */
static void show_faults(void)
{
    long read;
    __asm__ volatile("lb %0, 0(%1)" : "=r"(read) : "r"(0x10000000UL));
    __asm__ volatile("sb zero, 0(%0)" : : "r"(0x80000000UL));
    put_named("\nfaults: ", faults);
    put_named(" at MiB ", (long)(fault_at >> 20));
    __asm__ volatile("csrr %0, hstatus" : "=r"(read));
    put_named(", ", faults);
}

int main(long hart, const uint8_t *tree)
{
    __asm__ volatile("csrw stvec, %0" : : "r"(on_trap));
    __asm__ volatile("csrw sie, %0" : : "r"(1L << SOFTWARE | 1L << TIMER));
    put_named("hart ", hart);
    put_text(", ");
    show_tree(tree);
    show_base();
    show_timer();
    show_interrupt();
    show_fence();
    show_harts();
    show_console();
    show_faults();
    put_named("\nsrst: reboot ", call(SRST, 0, 1, 0, 0).error);
    put_named(", unknown ", call(SRST, 0, 3, 0, 0).error);
    put_text(", shutdown\n");
    call(SRST, 0, 0, 0, 0);
    return 1; /* never */
}
