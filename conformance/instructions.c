/* Instructions of RV64IMA, and words that are none: what one makes of all registers, of memory and of pc. */
#include "case.h"

#define DATA 0x80200000ul       /* 32 KiB of data; code is behind them, and JAL reaches no datum from CODE */
#define DATA_END 0x80208000ul
#define CODE 0x80308000ul
#define RAM_END 0x80400000ul
#define NOWHERE 0x1000000000ul  /* outside RAM */
#define EBREAK 0x00100073u      /* behind each instruction, and wherever a jump may go */
#define ONES 0xFFFFFFFFu
#define LEFT 0x3000             /* what htinst has before a case, and four times of it htval */
#define SHOWN_HYPERVISOR (HSTATUS_GVA | HSTATUS_SPV | HSTATUS_SPVP)

enum kind { PLAIN, BRANCH, JUMP, JUMP_TO, LOAD, STORE, ATOMIC, PAIR, GUEST_LOAD, GUEST_STORE };
enum {
    I_TYPE = 0x707F, SHIFT = 0xFC00707F, R_TYPE = 0xFE00707F, U_TYPE = 0x7F, A_TYPE = 0xF800707F,
    LR_TYPE = 0xF9F0707F, FENCE_TYPE = 0xFE007FFF, RS2_TYPE = 0xFFF0707F
};

/* A word is an instruction where its bits in `mask` are those of `match`. */
struct encoding {
    const char *name;
    u32 match, mask;
    enum kind kind;
};

#define COMPUTING(X) \
    X("add", 0x33) X("sub", 0x40000033) X("sll", 0x1033) X("slt", 0x2033) X("sltu", 0x3033) X("xor", 0x4033) \
    X("srl", 0x5033) X("sra", 0x40005033) X("or", 0x6033) X("and", 0x7033) X("mul", 0x02000033) \
    X("mulh", 0x02001033) X("mulhsu", 0x02002033) X("mulhu", 0x02003033) X("div", 0x02004033) \
    X("divu", 0x02005033) X("rem", 0x02006033) X("remu", 0x02007033) X("addw", 0x3B) X("subw", 0x4000003B) \
    X("sllw", 0x103B) X("srlw", 0x503B) X("sraw", 0x4000503B) X("mulw", 0x0200003B) X("divw", 0x0200403B) \
    X("divuw", 0x0200503B) X("remw", 0x0200603B) X("remuw", 0x0200703B) X("slliw", 0x101B) \
    X("srliw", 0x501B) X("sraiw", 0x4000501B)
#define IMMEDIATE(X) \
    X("addi", 0x13) X("slti", 0x2013) X("sltiu", 0x3013) X("xori", 0x4013) X("ori", 0x6013) \
    X("andi", 0x7013) X("addiw", 0x1B) X("fence", 0xF) X("fence.i", 0x100F)
#define BRANCHES(X) \
    X("beq", 0x63) X("bne", 0x1063) X("blt", 0x4063) X("bge", 0x5063) X("bltu", 0x6063) X("bgeu", 0x7063)
#define LOADS(X) \
    X("lb", 3) X("lh", 0x1003) X("lw", 0x2003) X("ld", 0x3003) X("lbu", 0x4003) X("lhu", 0x5003) \
    X("lwu", 0x6003)
#define STORES(X) X("sb", 0x23) X("sh", 0x1023) X("sw", 0x2023) X("sd", 0x3023)
#define ATOMICS(X) \
    X("amoadd", 0) X("amoswap", 1) X("amoxor", 4) X("amoor", 8) X("amoand", 12) X("amomin", 16) \
    X("amomax", 20) X("amominu", 24) X("amomaxu", 28)
#define GUEST_LOADS(X) \
    X("hlv.b", 0x600) X("hlv.bu", 0x601) X("hlv.h", 0x640) X("hlv.hu", 0x641) X("hlvx.hu", 0x643) \
    X("hlv.w", 0x680) X("hlv.wu", 0x681) X("hlvx.wu", 0x683) X("hlv.d", 0x6C0)
#define GUEST_STORES(X) \
    X("hsv.b", 0x62004073) X("hsv.h", 0x66004073) X("hsv.w", 0x6A004073) X("hsv.d", 0x6E004073)
#define FENCES(X) X("sfence.vma", 0x12000073) X("hfence.vvma", 0x22000073) X("hfence.gvma", 0x62000073)
#define REGISTERS(X) X(SSCRATCH) X(VSSCRATCH) X(HGEIP)

static const struct encoding encodings[] = {
#define X(name, match) { name, match, R_TYPE, PLAIN },
    COMPUTING(X)
#undef X
#define X(name, match) { name, match, I_TYPE, PLAIN },
    IMMEDIATE(X)
#undef X
#define X(name, match) { name, match, I_TYPE, BRANCH },
    BRANCHES(X)
#undef X
#define X(name, match) { name, match, I_TYPE, LOAD },
    LOADS(X)
#undef X
#define X(name, match) { name, match, I_TYPE, STORE },
    STORES(X)
#undef X
#define X(name, code) { name, (u32)code << 27 | 0x202F, A_TYPE, ATOMIC }, \
    { name, (u32)code << 27 | 0x302F, A_TYPE, ATOMIC },
    ATOMICS(X)
#undef X
#define X(name, number) { name, (u32)number << 20 | 0x4073, RS2_TYPE, GUEST_LOAD },
    GUEST_LOADS(X)
#undef X
#define X(name, match) { name, match, FENCE_TYPE, GUEST_STORE },
    GUEST_STORES(X)
#undef X
#define X(name, match) { name, match, FENCE_TYPE, PLAIN },
    FENCES(X)
#undef X
#define X(number) \
    { "csrrw", (u32)number << 20 | 0x1073, RS2_TYPE, PLAIN }, \
    { "csrrs", (u32)number << 20 | 0x2073, RS2_TYPE, PLAIN }, \
    { "csrrc", (u32)number << 20 | 0x3073, RS2_TYPE, PLAIN }, \
    { "csrrwi", (u32)number << 20 | 0x5073, RS2_TYPE, PLAIN }, \
    { "csrrsi", (u32)number << 20 | 0x6073, RS2_TYPE, PLAIN }, \
    { "csrrci", (u32)number << 20 | 0x7073, RS2_TYPE, PLAIN },
    REGISTERS(X)
#undef X
    { "slli", 0x1013, SHIFT, PLAIN }, { "srli", 0x5013, SHIFT, PLAIN }, { "srai", 0x40005013, SHIFT, PLAIN },
    { "lui", 0x37, U_TYPE, PLAIN }, { "auipc", 0x17, U_TYPE, PLAIN }, { "jal", 0x6F, U_TYPE, JUMP },
    { "jalr", 0x67, I_TYPE, JUMP_TO }, { "lr", 0x1000202F, LR_TYPE, ATOMIC },
    { "lr", 0x1000302F, LR_TYPE, ATOMIC }, { "sc", 0x1800202F, A_TYPE, PAIR },
    { "sc", 0x1800302F, A_TYPE, PAIR }
};
enum { KNOWN = sizeof encodings / sizeof encodings[0] };

void enter_gp(u64 *), enter_tp(u64 *), enter_t3(u64 *), enter_t4(u64 *);
extern char left_gp[], left_tp[], left_t3[], left_t4[];

/* The registers that can point to the block. */
static const struct {
    u32 number;
    void (*enter)(u64 *);
    const char *left;
} bases[4] = {
    { 3, enter_gp, left_gp }, { 4, enter_tp, left_tp }, { 28, enter_t3, left_t3 }, { 29, enter_t4, left_t4 }
};

static u64 block[32];

static struct {
    u32 word;
    const struct encoding *encoding;    /* none: the word is no instruction */
    const char *choice;
    enum mode mode;
    u64 registers[32], address, bytes, beside[2], scratch, guest_scratch, hypervisor;
    u64 size;                   /* how many bytes are accessed, or 0 */
    bool is_in_data;
} c;

static u32 *code(void) { return (u32 *)CODE; }
static u32 target(void) { return c.word >> 7 & 31; }
static u32 first(void) { return c.word >> 15 & 31; }
static u32 second(void) { return c.word >> 20 & 31; }
static bool is_of(enum kind kind) { return c.encoding != 0 && c.encoding->kind == kind; }
static bool is_guests(void) { return is_of(GUEST_LOAD) || is_of(GUEST_STORE); }

void prepare(void)
{
    for (u64 place = DATA_END; place < RAM_END; place += sizeof(u32))
        *(u32 *)place = EBREAK;
    __asm__ volatile("fence.i" : : : "memory");
    write_csr(HEDELEG, 0);
    write_csr(VSATP, 0);
    write_csr(HGATP, 0);
    write_csr(SIE, 0);
    write_csr(HIE, 0);
}

static const struct encoding *encoding_of(u32 word)
{
    for (u64 index = 0; index < KNOWN; index++)
        if ((word & encodings[index].mask) == encodings[index].match)
            return &encodings[index];
    return 0;
}

static int64_t jump_offset(u32 word)
{
    int64_t sign = (int32_t)word >> 31;
    return sign * (1 << 20) + (word & 0xFF000) + (word >> 9 & 0x800) + (word >> 20 & 0x7FE);
}

static int64_t branch_offset(u32 word)
{
    int64_t sign = (int32_t)word >> 31;
    return sign * (1 << 12) + (word << 4 & 0x800) + (word >> 20 & 0x7E0) + (word >> 7 & 0x1E);
}

/* Whether a word is of another family, or goes round for ever. */
static bool is_left_out(u32 word, const struct encoding *encoding)
{
    bool is_register = (word & 0x7F) == 0x73 && (word >> 12 & 3) != 0;
    if (encoding == 0)
        return is_register || word == ECALL || word == EBREAK || word == 0x10200073 || word == 0x10500073;
    return (encoding->kind == BRANCH && branch_offset(word) == 0)
        || (encoding->kind == JUMP && jump_offset(word) == 0);
}

/* Most words are instructions. Of the others some differ from one in a bit, and some name no register. None
   is of 16 bits. */
static void choose_word(void)
{
    u64 which = below(16);
    const struct encoding *one = &encodings[below(KNOWN)];
    c.word = one->match | ((u32)any() & ~one->mask);
    if (which == 13)
        c.word ^= 4u << below(30);
    else if (which == 14)
        c.word = (u32)any() | 3;
    else if (which == 15)
        c.word = ((u32)any() & 0xFE00707F) | 3;
    c.encoding = encoding_of(c.word);
    if (is_left_out(c.word, c.encoding)) {
        c.word = ONES;
        c.encoding = 0;
    }
}

static u64 any_value(void)
{
    static const u64 edges[16] = {
        0, 1, -1ul, 1ul << 63, ~(1ul << 63), 0x7FFFFFFF, 0x80000000, 0xFFFFFFFF, 0xFFFFFFFF80000000,
        0xFFFFFFFF7FFFFFFF, 0x100000000, 2, 31, 32, 63, 64
    };
    u64 value = any();
    switch (value & 3) {
    case 0: return edges[value >> 2 & 15];
    case 1: return (u64)((int64_t)value >> (value >> 2 & 63));
    default: return value;
    }
}

static u64 sign_extended(u64 value, u32 bits)
{
    return (u64)((int64_t)(value << (64 - bits)) >> (64 - bits));
}

static u64 size_of_access(void)
{
    u32 function = c.word >> 12 & 7;
    if (c.encoding == 0)
        return 0;
    switch (c.encoding->kind) {
    case LOAD: case STORE: case ATOMIC: case PAIR: return 1ul << (function & 3);
    case GUEST_LOAD: case GUEST_STORE: return 1ul << (c.word >> 26 & 3);
    default: return 0;
    }
}

/* Most addresses are in the data. One without a register is outside RAM. */
static void choose_address(void)
{
    static const u64 outside[3] = { RAM_END, NOWHERE, -8ul };
    u64 offset = is_of(LOAD) ? sign_extended(c.word >> 20, 12)
        : is_of(STORE) ? sign_extended((c.word >> 20 & 0xFE0) | target(), 12) : 0;
    c.address = once_in(16) ? outside[below(3)] : DATA + 8 + (below(DATA_END - DATA - 16) & -c.size);
    if (once_in(16))
        c.address += below(c.size);
    if (first() == 0)
        c.address = offset;
    else
        c.registers[first()] = c.address - offset;
    c.is_in_data = c.address >= DATA && c.address < DATA_END;
}

/* Where JALR goes: bit 0 does not count. */
static void choose_target(void)
{
    u64 place = once_in(16) ? NOWHERE : CODE - 0x80000 + (below(1 << 18) << 2);
    if (place == CODE)
        place += 8;
    place += once_in(4) ? below(4) : 0;
    if (first() != 0)
        c.registers[first()] = place - sign_extended(c.word >> 20, 12);
}

static void choose_registers(void)
{
    for (u64 number = 1; number < 32; number++)
        c.registers[number] = any_value();
    if (is_of(BRANCH) && once_in(3))
        c.registers[second()] = c.registers[first()];
    c.registers[0] = 0;
    if ((c.size = size_of_access()) != 0)
        choose_address();
    if (is_of(JUMP_TO))
        choose_target();
    c.bytes = any();
    c.beside[0] = any();
    c.beside[1] = any();
    c.scratch = any_value();
    c.guest_scratch = any_value();
}

static bool is_taken(void)
{
    u64 a = c.registers[first()], b = c.registers[second()];
    switch (c.word >> 12 & 7) {
    case 0: return a == b;
    case 1: return a != b;
    case 4: return (int64_t)a < (int64_t)b;
    case 5: return (int64_t)a >= (int64_t)b;
    case 6: return a < b;
    default: return a >= b;
    }
}

/* Whether it is a jump to an address that is not a multiple of 4. */
static bool is_between(void)
{
    if (is_of(BRANCH))
        return is_taken() && (branch_offset(c.word) & 2) != 0;
    if (is_of(JUMP))
        return (jump_offset(c.word) & 2) != 0;
    return is_of(JUMP_TO) && ((c.registers[first()] + (c.word >> 20)) & 2) != 0;
}

static bool is_made(void)
{
    return !is_guests() || c.mode == HS || (c.mode == U && (c.hypervisor & HSTATUS_HU) != 0);
}

/* Whether an LR goes before an SC. */
static bool is_paired(void) { return is_of(PAIR) && c.is_in_data && c.address % c.size == 0; }

static const char *choice_of(void)
{
    if (c.encoding == 0)
        return c.word == ONES ? "-" : "word";
    if (c.size != 0 && c.address % c.size != 0 && is_made())
        return "misaligned";
    if (is_of(PAIR))
        return is_paired() ? "pair" : "sc";
    return is_between() ? "ialign" : "-";
}

static void write_state(u64 base)
{
    for (u64 number = 0; number < 32; number++)
        block[number] = c.registers[number];
    block[bases[base].number] = c.registers[bases[base].number] = (u64)block;
    if (c.is_in_data) {
        u64 *place = (u64 *)(c.address & ~7ul);
        place[-1] = c.beside[0];
        place[0] = c.bytes;
        place[1] = c.beside[1];
    }
    write_csr(SSCRATCH, c.scratch);
    write_csr(VSSCRATCH, c.guest_scratch);
    write_csr(HTVAL, LEFT / 4);
    write_csr(HTINST, LEFT);
    code()[-1] = is_paired() ? (c.word & 0xF8000) | (c.word & 0x7000) | 0x1000002F : EBREAK;
    code()[0] = c.word;
    __asm__ volatile("fence.i" : : : "memory");
}

static void make_case(u64 base)
{
    write_csr(STVEC, bases[base].left);
    write_csr(SEPC, is_paired() ? CODE - 4 : CODE);
    write_csr(HSTATUS, c.hypervisor | (c.mode >= VS ? HSTATUS_SPV : 0));
    write_csr(SSTATUS, c.mode == HS || c.mode == VS ? SSTATUS_SPP : 0);
    bases[base].enter(block);
    code()[-1] = code()[0] = EBREAK;
}

static void tell(void)
{
    told(c.encoding == 0 ? "word" : c.encoding->name);
    told(mode_names[c.mode]);
    told_number("word", c.word);
    told_number("first", c.registers[first()]);
    told_number("second", c.registers[second()]);
    told_number("target", c.registers[target()]);
    told_number("bytes", c.is_in_data ? c.bytes : 0);
    told_number("sscratch", c.scratch);
    told_number("vsscratch", c.guest_scratch);
    told_number("hstatus", c.hypervisor);
    told(c.choice);
    told(":");
}

/* The registers that changed, a bit each. */
static u64 changed(void)
{
    u64 found = 0;
    for (u64 number = 1; number < 32; number++)
        found |= (u64)(block[number] != c.registers[number]) << number;
    return found;
}

static u64 value_of_target(void) { return target() == 0 ? 0 : block[target()]; }

static bool is_beside_kept(void)
{
    const u64 *place = (const u64 *)(c.address & ~7ul);
    return !c.is_in_data || (place[-1] == c.beside[0] && place[1] == c.beside[1]);
}

/* An SC may fail behind an LR too. It writes exactly where it answers 0. */
static void show_pair(u64 bytes)
{
    u64 mask = c.size == 8 ? -1ul : 0xFFFFFFFFul << (c.address & 4) * 8;
    u64 stored = (c.bytes & ~mask) | (c.registers[second()] << (c.address & 4) * 8 & mask);
    bool succeeds = target() == 0 ? bytes == stored : block[target()] == 0;
    got("others", changed() & ~(1ul << target()));
    got("agrees", bytes == (succeeds ? stored : c.bytes));
    chosen("value", value_of_target());
    chosen("bytes", bytes);
}

/* What a trap writes. At the EBREAK behind the instruction it is left out: stval may be 0 there. */
static void show_trap(bool is_chosen, u64 cause)
{
    bool is_end = cause == NO_TRAP, is_access = cause >= 4 && cause <= 7;
    got_or_chosen(is_chosen, "tval", is_end ? 0 : read_csr(STVAL));
    got_or_chosen(is_chosen, "hstatus", is_end ? 0 : read_csr(HSTATUS) & SHOWN_HYPERVISOR);
    got_or_chosen(is_chosen, "htval", read_csr(HTVAL));
    got_or_chosen(is_chosen, "htinst", is_access ? 0 : read_csr(HTINST));
}

static void show(void)
{
    bool is_pair = is_paired(), is_chosen = c.choice[0] != '-' && !is_pair;
    u64 cause = read_csr(SCAUSE), bytes = c.is_in_data ? *(u64 *)(c.address & ~7ul) : 0;
    cause = cause == 3 ? NO_TRAP : cause;
    got_or_chosen(is_chosen, "cause", cause);
    got_or_chosen(is_chosen, "end", read_csr(SEPC) - CODE);
    if (is_pair)
        show_pair(bytes);
    else {
        got_or_chosen(is_chosen, "changed", changed());
        got_or_chosen(is_chosen, "value", value_of_target());
        got_or_chosen(is_chosen, "bytes", bytes);
    }
    got_or_chosen(is_chosen, "beside", is_beside_kept());
    got_or_chosen(is_chosen, "sscratch", read_csr(SSCRATCH));
    got_or_chosen(is_chosen, "vsscratch", read_csr(VSSCRATCH));
    show_trap(is_chosen, cause);
}

void one_case(u64 number)
{
    (void)number;
    c = (typeof(c)){ 0 };
    c.mode = below(4);
    c.hypervisor = any() & (HSTATUS_GVA | HSTATUS_SPVP | HSTATUS_HU);
    choose_word();
    choose_registers();
    u64 base = 0;
    while (bases[base].number == target() || bases[base].number == first() || bases[base].number == second())
        base++;
    c.choice = choice_of();
    tell();
    write_state(base);
    make_case(base);
    show();
    write_csr(SSTATUS, 0);
}
