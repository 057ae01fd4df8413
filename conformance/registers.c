/* Each register number in each mode by each instruction: whether it traps, what it reads, and what is
   written. */
#include "case.h"

enum kind {
    FREE,                       /* holds any value */
    BITS,                       /* holds some bits */
    ADDRESS,                    /* holds addresses that Sv39 has, of instructions */
    CAUSE,                      /* holds codes of traps */
    UNNAMED,                    /* holds modes of translation: 0, or one that no machine has */
    TABLE,                      /* holds modes of translation: 0, or one with a table below 2^32 */
    ONLY_READ,
    CLOCK                       /* is only read too, and what it reads is left out */
};

/* The registers that each machine with the extension has, with their kinds, and with the bits of which the
   standard decides what they read; the others are choices (WARL and WPRI fields). */
#define STATUS (0xC0122ul | 0x21899)    /* SIE, SPIE, SPP, SUM, MXR, and bits that are 0 */
#define INTERRUPTS (0x222ul | 0x1CCC)
#define REGISTERS(X) \
    X(SSTATUS, BITS, STATUS) X(SIE, BITS, INTERRUPTS) X(STVEC, ADDRESS, 0) X(SCOUNTEREN, BITS, 0) \
    X(SENVCFG, BITS, 1) X(SSCRATCH, FREE, -1ul) X(SEPC, ADDRESS, -1ul) X(SCAUSE, CAUSE, -1ul) \
    X(STVAL, ADDRESS, -1ul) X(SIP, BITS, INTERRUPTS) X(SATP, UNNAMED, -1ul) X(VSSTATUS, BITS, STATUS) \
    X(VSIE, BITS, INTERRUPTS) X(VSTVEC, ADDRESS, 0) X(VSSCRATCH, FREE, -1ul) X(VSEPC, ADDRESS, -1ul) \
    X(VSCAUSE, CAUSE, -1ul) X(VSTVAL, ADDRESS, -1ul) X(VSIP, BITS, INTERRUPTS) X(VSATP, TABLE, -1ul) \
    X(HSTATUS, BITS, 0x7003C0) X(HEDELEG, BITS, 0xF0BFFE) X(HIDELEG, BITS, 0x444 | 0x1222) \
    X(HIE, BITS, 0x444 | 0x222) X(HTIMEDELTA, FREE, -1ul) X(HCOUNTEREN, BITS, 0) X(HGEIE, BITS, 1) \
    X(HENVCFG, BITS, 1) X(HTVAL, BITS, 0) X(HIP, BITS, 0x444 | 0x222) X(HVIP, BITS, 0x444 | 0x222) \
    X(HTINST, BITS, 0) X(HGATP, TABLE, -1ul) X(HGEIP, ONLY_READ, 1) X(TIME, CLOCK, 0)

static const struct known {
    u64 number;
    enum kind kind;
    u64 decided;
} known[] = {
#define X(number, kind, decided) { number, kind, decided },
    REGISTERS(X)
#undef X
};
enum { KNOWN = sizeof known / sizeof known[0] };

static u64 read_of(u64 number)
{
    switch (number) {
#define X(number, kind, decided) case number: return kind == CLOCK ? 0 : read_csr(number);
    REGISTERS(X)
#undef X
    default: return 0;
    }
}

/* HGEIP and TIME are only read. */
static void write_of(u64 number, u64 value)
{
    switch (number) {
#define X(number, kind, decided) \
    case number: if (kind != CLOCK && kind != ONLY_READ) write_csr(number, value); break;
    REGISTERS(X)
#undef X
    default: break;
    }
}

static const struct known *entry_of(u64 number)
{
    for (u64 index = 0; index < KNOWN; index++)
        if (known[index].number == number)
            return &known[index];
    return 0;
}

static u64 mode_of(u64 bits) { return may_have(SV48) && bits & 1 ? SV48 : SV39; }

/* A value that a register of this kind holds, as far as that is a matter of the kind. */
static u64 value_for(enum kind kind)
{
    static const unsigned char codes[8] = { 0, 1, 2, 3, 5, 12, 13, 15 };
    u64 value = any();
    switch (kind) {
    case ADDRESS: return (u64)((int64_t)(value << 25) >> 25) & ~3ul;
    case CAUSE: return value & 1 ? 1ul << 63 | (1 + (value & 4)) : codes[value >> 1 & 7];
    case UNNAMED: return value & 1 ? (1 + (value >> 1 & 3)) << 60 | (value >> 3 & 0xFFFFF) : 0;
    case TABLE: return value & 1 ? mode_of(value >> 24) << 60 | (value >> 1 & 0xFFFFC) : 0;
    default: return value;
    }
}

/* Whether a register is 0 before each case: each with which an interrupt could come, a translation could
   be on, or a trap could go elsewhere than to HS. make() writes the first three. */
static bool starts_clear(u64 number, enum mode mode)
{
    return number == SSTATUS || number == HSTATUS || number == STVEC || number == SIE || number == SIP
        || number == HIE || number == HIP || number == HVIP || number == VSIE || number == VSIP
        || number == SATP || number == VSATP || number == HGATP || (number == HEDELEG && mode != HS);
}

/* What a register holds before a case that may be of another one: no bits of which a machine may make
   more. */
static u64 before_case(const struct known *entry)
{
    u64 value = value_for(entry->kind);
    bool is_narrow = entry->number == VSSTATUS || entry->number == HENVCFG || entry->number == SENVCFG;
    return is_narrow ? value & entry->decided & ~0x21898ul : value;
}

static void clear(void)
{
    write_of(HIDELEG, 0x444);
    for (u64 index = 0; index < KNOWN; index++)
        write_of(known[index].number, 0);
}

void prepare(void) { clear(); }

static const char *const operations[8] = {
    "csrr", "csrrw", "csrrs", "csrrc", "csrrwi", "csrrsi", "csrrci", "csrw"
};

/* What a case does. The instruction reads into a2, and writes a1 or a number below 32. */
static struct {
    u64 number, operation, value, source;
    enum mode mode;
    const struct known *entry;
    bool is_immediate, writes, is_extra, is_illegal;
} c;

static u32 word_of_case(void)
{
    static const unsigned char functions[8] = { 2, 1, 2, 3, 5, 6, 7, 1 };
    u32 target = c.operation == 7 ? 0 : 12;
    return (u32)c.number << 20 | (u32)c.source << 15 | (u32)functions[c.operation] << 12 | target << 7 | 0x73;
}

static void choose(u64 index)
{
    c.number = index & 4095;
    c.mode = index >> 12 & 3;
    c.operation = index >> 14 & 7;
    c.entry = entry_of(c.number);
    c.is_immediate = c.operation >= 4 && c.operation < 7;
    u64 immediate = below(32);
    c.source = c.operation == 0 ? 0 : c.is_immediate ? immediate : 11;
    c.writes = c.operation == 1 || c.operation == 4 || c.operation == 7 || c.source != 0;
    enum kind kind = c.entry == 0 ? FREE : c.entry->kind;
    c.value = c.is_immediate ? immediate : value_for(kind);
    /* Not each machine has it. Registers of M are none in these modes, and a write is illegal where the
       number says that the register is only read. */
    c.is_extra = c.entry == 0 && (c.number >> 8 & 3) != 3 && !(c.writes && c.number >> 10 == 3);
    /* Not each machine holds it: an immediate, or bits of two codes. */
    bool is_made = c.is_immediate || (kind == CAUSE && (c.operation == 2 || c.operation == 3));
    c.is_illegal = c.writes && is_made && kind >= ADDRESS && kind <= TABLE;
}

/* The number of the register that the case reaches. */
static u64 reached(void)
{
    bool is_supervisors = c.number >> 8 == 1 && c.number != SCOUNTEREN && c.number != SENVCFG;
    return c.mode >= VS && is_supervisors ? c.number + 0x100 : c.number;
}

static void show(u64 before)
{
    bool rests = c.is_extra || c.is_illegal;
    bool ended = hart.cause == 8 || hart.cause == 10 || hart.cause == NO_TRAP;
    got_or_chosen(c.is_extra, "cause", hart.cause);
    got_or_chosen(c.is_extra, "tval", hart.tval);
    got_or_chosen(c.is_extra, "epc", place(hart.epc));
    chosen("htinst", hart.htinst);
    bool is_clock = c.entry != 0 && c.entry->kind == CLOCK;
    u64 decided = rests ? 0 : ended && c.entry != 0 ? c.entry->decided : -1ul;
    u64 reads = is_clock && ended ? 0 : hart.a2;
    got("reads", reads & decided);
    chosen("other", reads & ~decided);
    if (c.entry == 0 || is_clock)
        return;
    decided = rests ? 0 : c.entry->decided;
    u64 after = read_of(reached());
    got("holds", after & decided);
    chosen("besides", after & ~decided);
    chosen("before", before);
}

void one_case(u64 index)
{
    choose(index);
    for (u64 each = 0; each < KNOWN; each++)
        if (!starts_clear(known[each].number, c.mode))
            write_of(known[each].number, before_case(&known[each]));
    u64 before = read_of(reached()), hypervisor = any() & 0x700000;
    told(operations[c.operation]);
    told(mode_names[c.mode]);
    told_number("register", c.number);
    told_number("value", c.value);
    told_number("hideleg", read_csr(HIDELEG) & 0x444);
    told_number("hstatus", hypervisor);
    told_number("before", c.entry == 0 ? 0 : before & c.entry->decided);
    told(c.is_extra ? "register" : c.is_illegal ? "legal" : "-");
    told(":");
    hart.a1 = c.value;
    hart.a2 = 0x5A;
    make(c.mode, word_of_case(), 0, hypervisor);
    show(before);
    clear();
}
