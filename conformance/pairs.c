/* LR and SC: pairs that have to succeed at last, SCs that have to fail, and those that may do either. */
#include "case.h"

#define DATA 0x80200000ul
#define ADD_OFFSET 0x00050513u  /* addi a0, a0, 0 */

enum { LOAD_RESERVED = 0x1005262F, STORE_CONDITIONAL = 0x18B5262F, OF_A2 = 12 << 20, OF_A0 = 10 << 20,
    SECOND = 31 << 20, LONG_WORD = 1 << 12, ACQUIRE = 1 << 26, RELEASE = 1 << 25 };
#define BACK_3 0xFE061AE3u      /* bnez a2, by 3 instructions back */
#define BACK_2 0xFE061CE3u
#define STORE_WORD 0x00B52023u  /* sw a1, 0(a0) */
#define NOP 0x13u

static const char *const names[8] = {
    "loop", "read", "again", "alone", "other", "size", "stored", "trapped"
};
enum kind { LOOP, READ, AGAIN, ALONE, OTHER, SIZE, STORED, TRAPPED };

static u64 scratch;

static struct {
    enum kind kind;
    enum mode mode, second;     /* of both, or of the LR and of the SC */
    bool is_long, is_second_long;
    u32 operation;
    u64 address, distance, before, value;
} c;

void prepare(void)
{
    write_csr(HEDELEG, 0);
    write_csr(VSATP, 0);
    write_csr(HGATP, 0);
    write_csr(SIE, 0);
    write_csr(VSTVEC, stub_supervisor + 4);
}

/* LR and SC with any ordering that software should use. */
static u32 reserved(void)
{
    static const u32 orders[3] = { 0, ACQUIRE, ACQUIRE | RELEASE };
    return (u32)LOAD_RESERVED | (c.is_long ? LONG_WORD : 0) | orders[below(3)];
}

static u32 conditional(u32 source)
{
    static const u32 orders[3] = { 0, RELEASE, ACQUIRE | RELEASE };
    return ((u32)STORE_CONDITIONAL & ~(u32)SECOND) | source | (c.is_second_long ? LONG_WORD : 0)
        | orders[below(3)];
}

static void choose(void)
{
    static const u32 operations[5] = { 0x00B60633, 0x00B64633, 0x00B66633, 0x00B67633, 0x00058613 };
    c.kind = below(8);
    c.mode = below(4);
    c.second = c.kind == TRAPPED ? below(4) : c.mode;
    c.is_long = below(2);
    c.is_second_long = c.kind == SIZE ? !c.is_long : c.is_long;
    c.operation = operations[below(5)];
    c.distance = c.kind == OTHER ? 8ul << below(8) : 0;
    c.address = DATA + (below(1 << 17) << 3);
    if (c.kind != SIZE && !c.is_long && once_in(2))
        c.address += 4;
    c.before = any();
    c.value = any();
}

static void make_case(void)
{
    u32 first = reserved();
    u32 words[4] = { first, 0, 0, 0 };
    u64 count = 2;
    if (c.kind == LOOP) {
        words[1] = c.operation;
        words[2] = conditional(OF_A2);
        words[3] = BACK_3;
        count = 4;
    } else if (c.kind == READ) {
        count = 1;
    } else if (c.kind == AGAIN) {
        words[1] = conditional(11 << 20);
        words[2] = BACK_2;
        words[3] = conditional(OF_A0);
        count = 4;
    } else if (c.kind == ALONE) {
        words[0] = conditional(11 << 20);
        count = 1;
    } else if (c.kind == TRAPPED) {
        make_all(c.mode, words, 1, 0, 0);
        words[0] = conditional(11 << 20);
        count = 1;
    } else {
        words[1] = c.kind == STORED ? STORE_WORD : c.kind == OTHER ? ADD_OFFSET | (u32)c.distance << 20 : NOP;
        words[2] = conditional(c.kind == STORED ? OF_A0 : 11 << 20);
        count = 3;
    }
    make_all(c.second, words, count, 0, 0);
}

static void tell(const char *choice)
{
    told(names[c.kind]);
    told(mode_names[c.mode]);
    told(mode_names[c.second]);
    told_number("bytes", c.is_long ? 8 : 4);
    told_number("bytes", c.is_second_long ? 8 : 4);
    told_number("at", c.address);
    told_number("before", c.before);
    told_number("value", c.value);
    if (c.kind == LOOP)
        told_number("word", c.operation);
    told(choice);
    told(":");
}

/* What the bytes are if the SC writes `value`, and if it does not. */
static u64 written(u64 bytes, u64 address, u64 value)
{
    if (c.is_second_long)
        return value;
    u64 shift = (address & 4) * 8, mask = 0xFFFFFFFFul << shift;
    return (bytes & ~mask) | (value << shift & mask);
}

/* Where the SC may fail and may succeed, it writes exactly where its answer is 0. */
static void show_either(u64 *place)
{
    u64 address = (u64)place | (c.address & 4);
    u64 kept = c.before;
    if (c.kind == STORED) {
        u64 shift = (c.address & 4) * 8, mask = 0xFFFFFFFFul << shift;
        kept = (kept & ~mask) | (c.value << shift & mask);
    }
    u64 made = written(kept, address, c.kind == STORED ? c.address : c.value);
    got("agrees", *place == (hart.a2 == 0 ? made : kept));
    chosen("failed", hart.a2 != 0);
}

void one_case(u64 number)
{
    (void)number;
    choose();
    u64 *place = (u64 *)((c.address + c.distance) & ~7ul), *first = (u64 *)(c.address & ~7ul);
    *place = *first = c.before;
    hart.a0 = c.address;
    hart.a1 = c.value;
    hart.a2 = 0x5A;
    tell(c.kind >= OTHER ? "pair" : "-");
    __asm__ volatile("sc.d zero, zero, (%0)" : : "r"(&scratch) : "memory");
    make_case();
    got("cause", hart.cause);
    got("tval", hart.tval);
    if (c.kind >= OTHER)
        show_either(place);
    else {
        got("a2", c.kind == AGAIN || c.kind == ALONE ? hart.a2 != 0 : hart.a2);
        got("memory", *first);
    }
}
