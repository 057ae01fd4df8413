/* Fences: an access, then a change of a table or of a root, a fence or none, and an access again. Where the
   fence orders the change, the second access sees it; elsewhere it sees the state before or behind it. */
#include "case.h"

enum { V = 1, R = 2, W = 4, X = 8, USER = 16, GLOBAL = 32, A = 64, D = 128, GOOD = V | R | W | X | A | D };
#define IMAGE 0x80000000ul
#define DATA 0x80200000ul
#define VIRTUAL_GIGAPAGE 1ul    /* where both accesses go */
#define GIGAPAGE 3ul            /* where the first stage leads them, and through the second to page A */
#define OTHER_GIGAPAGE 4ul      /* and to page B */
#define ASID 5ul
#define VMID 3ul

typedef u64 table[512] __attribute__((aligned(4096)));
/* Each with the one that a change puts in its place. */
static table root, middle, leaves, other_root, other_middle, other_leaves;
static u64 guest_root[2048] __attribute__((aligned(16384)));
static u64 other_guest_root[2048] __attribute__((aligned(16384)));
static table guest_middle, guest_leaves, other_guest_middle, other_guest_leaves;
/* Of the page B at each stage, and of the image, which lies in the second stage where it lies in RAM. */
static table to_b_leaves, to_b_middle, image_middle, image_leaves, stub_middle, stub_leaves;
/* Page B: it has the place in the first 2 MiB that page A has in the second. Code, and a datum behind it. */
static u64 page_b[512] __attribute__((aligned(4096)));
#define CODE 0x0000007300000613ul       /* li a2, 0; ecall */

enum change {
    LEAF, DROPPED, MADE, RIGHTS, TABLE, ROOT, BARE, FLAG,
    GUEST_LEAF, GUEST_DROPPED, GUEST_MADE, GUEST_RIGHTS, GUEST_TABLE, GUEST_ROOT, REMAPPED, CHANGES
};
static const char *const changes[CHANGES] = {
    "leaf", "dropped", "made", "rights", "table", "root", "bare", "flag", "guest-leaf", "guest-dropped",
    "guest-made", "guest-rights", "guest-table", "guest-root", "remapped"
};
enum fence { NONE, SFENCE, HFENCE_VVMA, HFENCE_GVMA, SFENCE_OF_HS, BOTH, FENCES };
static const char *const fences[FENCES] = {
    "none", "sfence.vma", "hfence.vvma", "hfence.gvma", "sfence.vma-hs", "both"
};
enum named { ALL, OWN, OTHER };
static const char *const names[3] = { "all", "own", "other" };
enum use { FETCH, LOAD, STORE, AS_GUEST };
static const char *const uses[4] = { "fetch", "load", "store", "hlv" };
/* What an access comes to: a page, or a fault of a stage. */
enum { AT_A = 0xA, AT_B = 0xB, FAULT = 0xF1, GUEST_FAULT = 0xF2 };

static struct {
    enum change change;
    enum fence fence;
    enum named address, space;
    enum use first, second;
    int level, guest_level;
    bool is_user, is_global, names_zero;
    u64 page, va, old, new, within, upper;
} c;

static u64 leaf_at(u64 address, u64 bits) { return address >> 12 << 10 | bits; }
static u64 table_at(const void *place) { return leaf_at((u64)place, V); }
static u64 page_a(void) { return DATA + (c.page << 12); }

static enum named any_named(void) { return once_in(8) ? OTHER : once_in(2) ? OWN : ALL; }

/* Two of three fences are of the stage that changes. */
static void choose(void)
{
    c.change = below(CHANGES);
    c.fence = c.change >= GUEST_LEAF ? HFENCE_GVMA : once_in(2) ? SFENCE : HFENCE_VVMA;
    if (once_in(3))
        c.fence = below(FENCES);
    c.address = any_named();
    c.space = any_named();
    c.first = below(4);
    c.second = c.change == FLAG ? (once_in(2) ? LOAD : AS_GUEST) : below(4);
    c.level = c.change == REMAPPED ? 0 : below(c.change == TABLE ? 2 : 3);
    c.guest_level = below(2);
    c.is_user = c.change != FLAG && once_in(2);
    c.is_global = once_in(4);
    c.page = (u64)page_b >> 12 & 511;
    c.va = VIRTUAL_GIGAPAGE << 30 | c.page << 12;
    c.within = any();
    c.upper = any();
    c.names_zero = once_in(4);
}

/* The first stage to this gigapage by these tables, with a leaf of the case's level. */
static void write_first(u64 *top, u64 *second, u64 *third, u64 gigapage, u64 bits)
{
    u64 block = gigapage << 30 | (c.level == 0 ? c.page << 12 : 0), leaf = leaf_at(block, bits);
    third[c.page] = leaf;
    second[0] = c.level == 1 ? leaf : table_at(third);
    top[VIRTUAL_GIGAPAGE] = c.level == 2 ? leaf : table_at(second);
    top[2] = table_at(stub_middle);
}

/* The second stage from a gigapage to a page's block. */
static void write_second(u64 *top, u64 *second, u64 *third, u64 gigapage, u64 block, u64 bits)
{
    u64 leaf = leaf_at(block | (c.guest_level == 0 ? c.page << 12 : 0), bits);
    third[c.page] = leaf;
    second[0] = c.guest_level == 1 ? leaf : table_at(third);
    top[gigapage] = table_at(second);
}

static u64 bits_of_first(void)
{
    return GOOD | (c.is_user ? USER : 0) | (c.is_global ? GLOBAL : 0);
}

static void write_tables(void)
{
    u64 first = bits_of_first(), second = GOOD | USER;
    u64 lost = c.change == MADE ? V : 0, guest_lost = c.change == GUEST_MADE ? V : 0;
    u64 kept = c.change == FLAG ? R | W : 0;
    write_first(root, middle, leaves, GIGAPAGE, first & ~lost & ~kept);
    write_first(other_root, other_middle, other_leaves, OTHER_GIGAPAGE, first);
    for (u64 each = 0; each < 2; each++) {
        u64 *top = each == 0 ? guest_root : other_guest_root;
        top[2] = table_at(image_middle);
        write_second(top, to_b_middle, to_b_leaves, OTHER_GIGAPAGE, IMAGE, second);
        top[VIRTUAL_GIGAPAGE] = table_at(to_b_middle);
    }
    write_second(guest_root, guest_middle, guest_leaves, GIGAPAGE, DATA, second & ~guest_lost);
    write_second(other_guest_root, other_guest_middle, other_guest_leaves, GIGAPAGE, IMAGE, second);
    image_leaves[(u64)leaves >> 12 & 511] = leaf_at((u64)leaves, second);
}

static u64 vsatp_of(const void *place) { return (u64)SV39 << 60 | ASID << 44 | (u64)place >> 12; }
static u64 hgatp_of(const void *place) { return (u64)SV39 << 60 | VMID << 44 | (u64)place >> 12; }

/* The entry of the leaf at each stage. */
static u64 *first_entry(void)
{
    return c.level == 0 ? &leaves[c.page] : c.level == 1 ? &middle[0] : &root[VIRTUAL_GIGAPAGE];
}

static u64 *second_entry(void)
{
    return c.guest_level == 0 ? &guest_leaves[c.page] : &guest_middle[0];
}

/* Where an execute-only page leads each use. */
static u64 by_rights(u64 fault) { return c.second == FETCH ? AT_A : fault; }

static void expect(u64 old, u64 new)
{
    c.old = old;
    c.new = new;
}

static void change_first(void)
{
    switch (c.change) {
    case LEAF: *first_entry() = leaf_at(OTHER_GIGAPAGE << 30 | (c.level == 0 ? c.page << 12 : 0),
        bits_of_first()); break;
    case DROPPED: *first_entry() &= ~(u64)V; break;
    case MADE: *first_entry() |= V; break;
    case RIGHTS: *first_entry() &= ~(u64)(R | W); break;
    case TABLE: *(c.level == 0 ? &middle[0] : &root[VIRTUAL_GIGAPAGE])
        = table_at(c.level == 0 ? other_leaves : other_middle); break;
    case ROOT: write_csr(VSATP, vsatp_of(other_root)); break;
    case BARE: write_csr(VSATP, 0); break;
    default: write_csr(VSSTATUS, SSTATUS_MXR); break;
    }
}

static void change_second(void)
{
    switch (c.change) {
    case GUEST_LEAF: *second_entry() = leaf_at(IMAGE | (c.guest_level == 0 ? c.page << 12 : 0), GOOD | USER);
        break;
    case GUEST_DROPPED: *second_entry() &= ~(u64)V; break;
    case GUEST_MADE: *second_entry() |= V; break;
    case GUEST_RIGHTS: *second_entry() &= ~(u64)(R | W); break;
    case GUEST_TABLE: *(c.guest_level == 0 ? &guest_middle[0] : &guest_root[GIGAPAGE])
        = table_at(c.guest_level == 0 ? other_guest_leaves : other_guest_middle); break;
    case GUEST_ROOT: write_csr(HGATP, hgatp_of(other_guest_root)); break;
    default: image_leaves[(u64)leaves >> 12 & 511] = leaf_at((u64)other_leaves, GOOD | USER); break;
    }
}

static void choose_outcomes(void)
{
    switch (c.change) {
    case DROPPED: expect(AT_A, FAULT); break;
    case MADE: expect(FAULT, AT_A); break;
    case RIGHTS: expect(AT_A, by_rights(FAULT)); break;
    case FLAG: expect(FAULT, AT_A); break;
    case GUEST_DROPPED: expect(AT_A, GUEST_FAULT); break;
    case GUEST_MADE: expect(GUEST_FAULT, AT_A); break;
    case GUEST_RIGHTS: expect(AT_A, by_rights(GUEST_FAULT)); break;
    default: expect(AT_A, AT_B); break;
    }
}

/* Whether the standard has the second access see the change. A fence for an address orders leaves alone, and
   one for an ASID no global mapping. */
static bool is_ordered(void)
{
    bool is_of_table = c.change == TABLE || c.change == ROOT || c.change == GUEST_TABLE
        || c.change == GUEST_ROOT || c.change == REMAPPED;
    if (c.change == BARE || c.change == FLAG || c.fence == BOTH)
        return true;
    if (c.change == REMAPPED || c.address == OTHER || c.space == OTHER || (c.address == OWN && is_of_table))
        return false;
    if (c.change >= GUEST_LEAF)
        return c.fence == HFENCE_GVMA;
    return (c.fence == SFENCE || c.fence == HFENCE_VVMA) && !(c.space == OWN && c.is_global);
}

static void make_use(enum use use)
{
    static const u32 words[4] = { 0x00050067, 0x00853603, 0x00B53823, 0x6C054673 };
    enum mode mode = use == AS_GUEST ? HS : c.is_user ? VU : VS;
    hart.a0 = use == AS_GUEST ? c.va + 8 : c.va;
    hart.a2 = 0;
    make(mode, words[use], 0, c.is_user ? 0 : HSTATUS_SPVP);
}

/* What the access came to. A store of a1 is looked for in both pages. */
static u64 seen(enum use use)
{
    u64 *in_a = (u64 *)(page_a() + 16), *in_b = &page_b[2];
    bool is_first_fault = hart.cause == 12 || hart.cause == 13 || hart.cause == 15;
    u64 result = is_first_fault ? FAULT : hart.cause >= 20 && hart.cause <= 23 ? GUEST_FAULT
        : hart.cause != 8 && hart.cause != 10 && hart.cause != NO_TRAP ? hart.cause << 8
        : use == STORE ? (u64)(*in_a == hart.a1 ? AT_A : 0) | (u64)(*in_b == hart.a1 ? AT_B : 0) : hart.a2;
    *in_a = *in_b = 0;
    return result;
}

/* An address of the case's page as it is in a page at 1000: what it is in truth depends on the compiler. */
static u64 in_page(u64 address) { return address >> 12 == c.va >> 12 ? 0x1000 | (address & 4095) : address; }

/* Any address of the leaf, or another one. A register that has 0 names address 0, and not all. */
static u64 named_address(u64 address, u64 level)
{
    u64 size = 1ul << (12 + 9 * level);
    if (c.address == OTHER)
        return c.names_zero ? 0 : address ^ 1ul << 36;
    return (address & -size) | (c.within & (size - 1));
}

/* An ASID of 16 bits or a VMID of 14, or another one. The bits above do not count. */
static u64 named_space(u64 space, u32 bits)
{
    return (c.space != OTHER ? space : c.names_zero ? 0 : space ^ 2) | (c.names_zero ? 0 : c.upper << bits);
}

/* The fence's word has a0 for the address and a1 for the ASID or VMID, or x0 in their places. */
static void make_fence(void)
{
    static const u32 words[FENCES] = { 0, 0x12000073, 0x22000073, 0x62000073, 0x12000073, 0 };
    if (c.fence == NONE)
        return;
    if (c.fence == BOTH) {
        __asm__ volatile(".word 0x22000073\n .word 0x62000073" : : : "memory");
        return;
    }
    bool is_guests = c.fence == HFENCE_GVMA;
    hart.a0 = is_guests ? named_address(GIGAPAGE << 30 | c.page << 12, (u64)c.guest_level) >> 2
        : named_address(c.va, (u64)c.level);
    hart.a1 = is_guests ? named_space(VMID, 14) : named_space(ASID, 16);
    u32 word = words[c.fence] | (c.address != ALL ? 10u << 15 : 0) | (c.space != ALL ? 11u << 20 : 0);
    make(c.fence == SFENCE ? VS : HS, word, 0, 0);
}

static void tell(const char *choice)
{
    told(changes[c.change]);
    told(c.second == AS_GUEST ? "HS" : c.is_user ? "VU" : "VS");
    told(uses[c.first]);
    told(uses[c.second]);
    told_number("level", (u64)c.level);
    told_number("level", (u64)c.guest_level);
    told(c.is_global ? "global" : "local");
    told(fences[c.fence]);
    told(names[c.address]);
    told(names[c.space]);
    told(choice);
    told(":");
}

void prepare(void)
{
    for (u64 page = 0; page < 512; page++) {
        image_leaves[page] = leaf_at(IMAGE + (page << 12), GOOD | USER);
        stub_leaves[page] = leaf_at(IMAGE + (page << 12), GOOD);
    }
    stub_leaves[(u64)stub_user >> 12 & 511] |= USER;
    image_middle[0] = table_at(image_leaves);
    stub_middle[0] = table_at(stub_leaves);
    write_csr(HEDELEG, 0);
    write_csr(SIE, 0);
    write_csr(VSTVEC, stub_supervisor + 4);
    c.page = (u64)page_b >> 12 & 511;
    u64 *a = (u64 *)page_a();
    a[0] = CODE | (u64)AT_A << 20;
    a[1] = AT_A;
    page_b[0] = CODE | (u64)AT_B << 20;
    page_b[1] = AT_B;
    __asm__ volatile("fence.i" : : : "memory");
}

void one_case(u64 number)
{
    (void)number;
    choose();
    choose_outcomes();
    bool is_decided = is_ordered();
    write_tables();
    write_csr(VSSTATUS, 0);
    write_csr(VSATP, vsatp_of(root));
    write_csr(HGATP, hgatp_of(guest_root));
    fence_all();
    tell(is_decided ? "-" : "fence");
    hart.a1 = any() | 1;
    make_use(c.first);
    got("first", seen(c.first));
    if (c.change < GUEST_LEAF)
        change_first();
    else
        change_second();
    make_fence();
    hart.a1 = any() | 1;
    make_use(c.second);
    u64 second = seen(c.second);
    got("either", second == c.old || second == c.new);
    got_or_chosen(!is_decided, "seen", second);
    got_or_chosen(!is_decided, "cause", hart.cause);
    got_or_chosen(!is_decided, "tval", in_page(hart.tval));
    write_csr(VSATP, 0);
    write_csr(HGATP, 0);
}
