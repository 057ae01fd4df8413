/* Accesses through both stages: each kind, in VS and VU or as HLV and HSV make them, under tables of
   random leaves. A stage of four levels (Sv48, Sv48x4) has the root of three levels as its table of level 2
   for the lowest 512 GiB, and another one for the rest. */
#include "case.h"

enum { V = 1, R = 2, W = 4, X = 8, USER = 16, GLOBAL = 32, A = 64, D = 128, GOOD = V | R | W | X | A | D };
#define DATA 0x80200000ul
#define RAM_END 0x80400000ul
#define IMAGE 0x80000000ul
#define TABLES 0x40000000ul     /* the guest physical address of IMAGE */
#define TOP 39
#define GIGAPAGE 30
#define MEGAPAGE 21
#define PAGE 12

typedef u64 table[512] __attribute__((aligned(4096)));
/* First stage: of the address that is accessed, and of the stubs, which have their own addresses. */
static table root, middle, leaves, stub_middle, stub_leaves, wide_root, upper;
/* Second stage: of data, of the first stage's tables, and of the stubs. */
static u64 guest_root[2048] __attribute__((aligned(16384)));
static u64 wide_guest_root[2048] __attribute__((aligned(16384)));
static table guest_upper, data_middle, data_leaves, table_middle, table_leaves;
static table guest_stub_middle, guest_stub_leaves;

static struct {
    const char *name;
    u64 address, reached;       /* where the access goes, and where it arrives if all leaves permit it */
    u32 word;
    enum mode mode;
    u64 first_bytes, status, hypervisor, guest_status, first_leaf, second_leaf;
    int first_level, second_level, size;
    bool is_bare, is_flat;      /* without the first stage; without the second */
    bool is_wide, is_guest_wide;        /* with a first stage of four levels; with a second */
    bool stores, fetches, needs_dirty, is_misaligned, is_failing_sc, has_extension;
    u64 root_top, root_index, page, guest_top, guest_index, data_slot;
    /* Of the line alone: entries that name tables, and second-stage leaves of tables. */
    u64 pointers[6], tables[3], pointer_count, table_count, table_level, delegated, operand;
} c;

static u64 leaf_at(u64 address, u64 bits) { return address >> PAGE << 10 | bits; }

/* Where the first stage's tables lie for the walk. */
static u64 guest_place(const void *place)
{
    return c.is_flat ? (u64)place : (u64)place - IMAGE + TABLES;
}

static void choose_load_or_store(void)
{
    static const char *const names[11] = {
        "lb", "lh", "lw", "ld", "lbu", "lhu", "lwu", "sb", "sh", "sw", "sd"
    };
    u64 which = below(11);
    u32 function = which < 7 ? which : which - 7;
    c.name = names[which];
    c.size = 1 << (function & 3);
    c.stores = which >= 7;
    c.word = which < 7 ? 0x00050603 | function << 12 : 0x00B50023 | function << 12;
}

static void choose_atomic(void)
{
    static const char *const names[11] = {
        "amoadd", "amoswap", "lr", "sc", "amoxor", "amoor", "amoand", "amomin", "amomax", "amominu", "amomaxu"
    };
    static const char codes[11] = { 0, 1, 2, 3, 4, 8, 12, 16, 20, 24, 28 };
    u64 which = below(11), is_long = below(2);
    c.name = names[which];
    c.size = is_long ? 8 : 4;
    c.stores = which != 2;
    c.is_failing_sc = which == 3;
    c.word = 0x0005062F | (2 + is_long) << 12 | (which == 2 ? 0 : 11 << 20) | (u32)codes[which] << 27;
}

static void choose_as_guest(void)
{
    static const char *const names[13] = {
        "hlv.b", "hlv.bu", "hlv.h", "hlv.hu", "hlvx.hu", "hlv.w", "hlv.wu", "hlvx.wu", "hlv.d",
        "hsv.b", "hsv.h", "hsv.w", "hsv.d"
    };
    static const unsigned char functions[13] = { 0x30, 0x30, 0x32, 0x32, 0x32, 0x34, 0x34, 0x34, 0x36,
        0x31, 0x33, 0x35, 0x37 };
    static const unsigned char seconds[9] = { 0, 1, 0, 1, 3, 0, 1, 3, 0 };
    u64 which = below(13);
    c.name = names[which];
    c.size = 1 << ((functions[which] & 7) >> 1);
    c.stores = which >= 9;
    c.word = 0x00054073 | (u32)functions[which] << 25
        | (c.stores ? 11u << 20 : (u32)seconds[which] << 20 | 0x600);
}

static void choose_kind(void)
{
    u64 kind = below(8);
    c.mode = once_in(2) ? VS : VU;
    if (kind < 3)
        choose_load_or_store();
    else if (kind < 5)
        choose_atomic();
    else if (kind < 6) {
        c.name = "fetch";
        c.size = 4;
        c.fetches = true;
        c.word = 0x00050067;    /* jr a0 */
    } else {
        choose_as_guest();
        c.mode = once_in(4) ? U : HS;
    }
    c.needs_dirty = c.stores;
}

/* The privilege of the access in the guest. */
static bool is_supervisor(void)
{
    return c.mode == VS || (c.mode < VS && c.hypervisor & HSTATUS_SPVP);
}

static void choose_status(void)
{
    c.status = (once_in(4) ? SSTATUS_MXR : 0) | (once_in(4) ? SSTATUS_SUM : 0);
    c.guest_status = (once_in(4) ? SSTATUS_MXR : 0) | (once_in(2) ? SSTATUS_SUM : 0);
    c.hypervisor = (once_in(2) ? HSTATUS_SPVP : 0) | (c.mode == U || once_in(2) ? HSTATUS_HU : 0);
    c.is_bare = once_in(8);
    c.is_flat = once_in(8);
    c.is_wide = may_have(SV48) && once_in(2);
    c.is_guest_wide = may_have(SV48) && once_in(2);
    c.first_level = once_in(2) ? 0 : below(c.is_wide ? 4 : 3);
    c.second_level = once_in(2) ? 0 : below(c.is_guest_wide ? 4 : 3);
}

/* The indices into the roots of four levels. The lowest 512 GiB have the stubs, so no leaf spans these; one
   of 512 GiB maps an address to the place that its low bits are. */
static void choose_tops(void)
{
    static const unsigned short guest_tops[8] = { 0, 1, 3, 255, 256, 511, 1024, 2047 };
    static const unsigned short root_tops[6] = { 0, 1, 5, 255, 256, 511 };
    if (c.is_guest_wide && !c.is_flat) {
        c.guest_top = guest_tops[c.second_level == 3 ? 1 + below(7) : below(8)];
        c.guest_index = c.second_level == 3 ? 2 : c.guest_index & 511;
    }
    if (c.is_wide && !c.is_bare) {
        c.root_top = root_tops[c.first_level == 3 ? 1 + below(5) : below(6)];
        if (c.first_level == 3)
            c.root_index = c.guest_index & 511;
    }
}

/* The lowest bit of an address that is not part of an index into a table, or the one below it. */
static u64 first_free_bit(void)
{
    return c.is_bare ? (c.is_guest_wide && !c.is_flat ? 50 : 38) : c.is_wide ? 47 : 38;
}

/* The address, and the places that it goes through if each leaf is good. */
static void choose_address(void)
{
    static const unsigned short guest_indices[10] = { 0, 3, 4, 5, 255, 256, 511, 512, 1024, 2047 };
    static const unsigned short root_indices[7] = { 0, 1, 3, 5, 255, 256, 511 };
    u64 offset = below(4096) & -(u64)c.size;
    if (!c.fetches && once_in(32))
        offset = below(4088);
    c.is_misaligned = offset % (u64)c.size != 0;
    c.page = below(512);
    c.guest_index = c.is_flat ? 2 : guest_indices[below(10)];
    c.root_index = root_indices[below(7)];
    choose_tops();
    u64 guest_page = c.is_bare || c.first_level > 0 ? c.page : below(512);
    c.data_slot = guest_page;
    u64 reached = c.is_flat || c.second_level > 0 ? guest_page : below(512);
    c.address = (c.is_bare ? c.guest_top : c.root_top) << TOP
        | (c.is_bare ? c.guest_index : c.root_index) << GIGAPAGE | 1ul << MEGAPAGE | c.page << PAGE | offset;
    if (!c.is_bare && (c.is_wide ? c.root_top : c.root_index) >= 256)
        c.address |= -1ul << (c.is_wide ? 48 : 39);
    if (once_in(64))
        c.address ^= 1ul << (first_free_bit() + below(64 - first_free_bit()));
    c.reached = DATA + (reached << PAGE) + offset;
}

/* A leaf with some bits changed; first-stage leaves have USER as the mode wants it most of the time. */
static u64 changed(u64 bits, bool *has_extension)
{
    static const unsigned char rights[8] = { R | W | X, R | W | X, R | W, R | X, R, X, W, W | X };
    if (once_in(2))
        bits = (bits & ~(u64)(R | W | X)) | rights[below(8)];
    if (once_in(8))
        bits ^= USER;
    if (once_in(16))
        bits &= ~(u64)A;
    if (once_in(16))
        bits &= ~(u64)D;
    if (once_in(32))
        bits ^= V;
    if (once_in(32))
        bits ^= GLOBAL;
    if (once_in(32))
        bits |= 1ul << (8 + below(2));
    if (once_in(64))
        bits |= 1ul << (54 + below(7));
    if (once_in(128)) {
        bits |= 1ul << (61 + below(3));
        *has_extension = true;
    }
    return bits;
}

/* An entry that names a table, with a bit changed now and then. The line has it without the table's place. */
static u64 named(u64 place)
{
    u64 entry = leaf_at(place, V);
    if (once_in(64))
        entry ^= 1ul << (once_in(4) ? 54 + below(7) : below(10));
    bool is_elsewhere = once_in(128);
    if (is_elsewhere)
        entry = leaf_at(once_in(2) ? RAM_END : 0x1000000000, V);
    c.pointers[c.pointer_count++] = is_elsewhere ? entry : entry - leaf_at(place, 0);
    return entry;
}

/* A leaf to a block of this level: now and then outside RAM, also as a guest physical address, or at a place
   that is not a multiple of its size. None leads to the image itself. */
static u64 block_leaf(u64 block, int level, u64 bits)
{
    if (once_in(64))
        block = once_in(2) ? 0x1000000000 : RAM_END;
    if (level > 0 && once_in(32))
        block |= 1ul << (PAGE + below(9 * (u64)level));
    return leaf_at(block, bits);
}

/* The table of level 2 of the address, at each stage. */
static u64 *second_table(void) { return c.root_top != 0 ? upper : root; }
static u64 *guest_second_table(void) { return c.guest_top != 0 ? guest_upper : guest_root; }

/* Writes the first stage's entries of the address. Gives the leaf. */
static u64 write_first_stage(void)
{
    u64 bits = changed(GOOD | (is_supervisor() && !once_in(3) ? 0 : USER), &c.has_extension);
    u64 gigapage = c.guest_top << TOP | c.guest_index << GIGAPAGE;
    u64 block = c.first_level == 3 ? gigapage >> TOP << TOP
        : c.first_level == 2 ? gigapage : gigapage + (1ul << MEGAPAGE);
    if (c.first_level == 0)
        block += c.data_slot << PAGE;
    u64 leaf = block_leaf(block, c.first_level, bits);
    if (may_have(SV48) && once_in(64))      /* a guest physical address of 42 to 50 bits */
        leaf ^= 1ul << (39 + below(9));
    if (c.root_top != 0)
        wide_root[c.root_top] = c.first_level == 3 ? leaf : named(guest_place(upper));
    second_table()[c.root_index] = c.first_level == 2 ? leaf : named(guest_place(middle));
    middle[1] = c.first_level == 1 ? leaf : named(guest_place(leaves));
    leaves[c.page] = leaf;
    return leaf;
}

/* Writes the second stage's entries of the data. Gives the leaf. */
static u64 write_second_stage(void)
{
    u64 bits = changed(GOOD | USER, &c.has_extension);
    u64 block = c.second_level == 3 ? 0 : c.second_level == 2 ? IMAGE : DATA;
    if (c.second_level == 0)
        block = c.reached & ~0xFFFul;
    u64 leaf = block_leaf(block, c.second_level, bits);
    if (c.guest_top != 0)
        wide_guest_root[c.guest_top] = c.second_level == 3 ? leaf : named((u64)guest_upper);
    guest_second_table()[c.guest_index] = c.second_level == 2 ? leaf : named((u64)data_middle);
    data_middle[1] = c.second_level == 1 ? leaf : named((u64)data_leaves);
    data_leaves[c.data_slot] = leaf;
    return leaf;
}

/* Writes the second stage's leaf of a table of the first stage. Gives it. */
static u64 write_table_leaf(const void *place)
{
    u64 bits = once_in(8) ? changed(GOOD | USER, &c.has_extension) : GOOD | USER;
    u64 leaf = leaf_at((u64)place, bits);
    table_leaves[((u64)place >> PAGE) & 511] = leaf;
    c.tables[c.table_count++] = bits;
    return leaf;
}

/* Whether hardware that sets A and D may go on where this suite has a page fault (Svade). */
static bool may_be_set(u64 leaf, bool is_dirtied)
{
    return (leaf & A) == 0 || (is_dirtied && (leaf & D) == 0);
}

static bool write_tables(void)
{
    bool rests = false;
    if (!c.is_bare)
        rests |= may_be_set(c.first_leaf = write_first_stage(), c.needs_dirty);
    if (!c.is_flat) {
        rests |= may_be_set(c.second_leaf = write_second_stage(), c.needs_dirty);
        rests |= may_be_set(write_table_leaf(middle), false) && !c.is_bare;
        rests |= may_be_set(write_table_leaf(leaves), false) && !c.is_bare;
        if (c.root_top != 0)
            rests |= may_be_set(write_table_leaf(upper), false);
        u64 level = below(16);
        c.table_level = level == 1 || level == 2 ? level : 0;
        guest_root[1] = level == 2 ? leaf_at(IMAGE, GOOD | USER) : leaf_at((u64)table_middle, V);
        table_middle[0] = level == 1 ? leaf_at(IMAGE, GOOD | USER) : leaf_at((u64)table_leaves, V);
    }
    u64 user = leaf_at((u64)stub_user, GOOD | USER);
    root[2] = leaf_at(guest_place(stub_middle), V);
    stub_middle[0] = leaf_at(guest_place(stub_leaves), V);
    stub_leaves[((u64)stub_user >> PAGE) & 511] = user;
    stub_leaves[((u64)stub_supervisor >> PAGE) & 511] = leaf_at((u64)stub_supervisor, GOOD);
    wide_root[0] = leaf_at(guest_place(root), V);
    return rests;
}

static void clear_tables(void)
{
    wide_root[c.root_top] = upper[c.root_index] = 0;
    root[c.root_index] = middle[1] = leaves[c.page] = 0;
    wide_guest_root[c.guest_top] = guest_upper[c.guest_index & 511] = 0;
    guest_root[c.guest_index] = data_middle[1] = data_leaves[c.data_slot] = 0;
    guest_root[2] = leaf_at((u64)guest_stub_middle, V);
    wide_guest_root[0] = leaf_at((u64)guest_root, V);
}

static void write_registers(void)
{
    write_csr(VSSTATUS, c.guest_status);
    u64 first = c.is_wide ? (u64)SV48 << 60 | guest_place(wide_root) >> PAGE
        : (u64)SV39 << 60 | guest_place(root) >> PAGE;
    u64 second = c.is_guest_wide ? (u64)SV48 << 60 | (u64)wide_guest_root >> PAGE
        : (u64)SV39 << 60 | (u64)guest_root >> PAGE;
    write_csr(VSATP, c.is_bare ? 0 : first);
    write_csr(HGATP, c.is_flat ? 0 : second);
    c.delegated = once_in(3) ? 0xB0F9 : 0;
    write_csr(HEDELEG, c.delegated);
    write_csr(VSTVEC, stub_supervisor + 4);
    write_csr(VSCAUSE, 0);
    write_csr(VSEPC, 0);
    write_csr(VSTVAL, 0);
    fence_all();
}

void prepare(void)
{
    guest_root[2] = leaf_at((u64)guest_stub_middle, V);
    guest_stub_middle[0] = leaf_at((u64)guest_stub_leaves, V);
    for (u64 page = 0; page < 512; page++) {
        guest_stub_leaves[page] = leaf_at(IMAGE + (page << PAGE), GOOD | USER);
        table_leaves[page] = leaf_at(IMAGE + (page << PAGE), GOOD | USER);
    }
}

static void tell(const char *choice)
{
    told(c.name);
    told(mode_names[c.mode]);
    told_number("at", c.address);
    told(c.is_bare ? "bare" : c.is_wide ? "sv48" : "sv39");
    told_number("level", (u64)c.first_level);
    told(c.is_flat ? "flat" : c.is_guest_wide ? "sv48x4" : "sv39x4");
    told_number("level", (u64)c.second_level);
    told_number("leaf", c.first_leaf);
    told_number("leaf", c.second_leaf);
    told_number("sstatus", c.status);
    told_number("vsstatus", c.guest_status);
    told_number("hstatus", c.hypervisor);
    told_number("hedeleg", c.delegated);
    told_number("word", c.word);
    told_number("bytes", c.first_bytes);
    told_number("operand", c.operand);
    told_number("top", c.guest_top);
    told_number("index", c.guest_index);
    told_number("slot", c.data_slot);
    for (u64 each = 0; each < c.pointer_count; each++)
        told_number("pointer", c.pointers[each]);
    for (u64 each = 0; each < c.table_count; each++)
        told_number("table", c.tables[each]);
    told_number("tables", c.table_level);
    told(choice);
    told(":");
}

static void show(bool is_chosen)
{
    got_or_chosen(is_chosen, "cause", hart.cause);
    got_or_chosen(is_chosen, "tval", hart.tval);
    got_or_chosen(is_chosen, "epc", place(hart.epc));
    got_or_chosen(is_chosen, "hstatus", hart.hstatus & 0x7003C0);
    got_or_chosen(is_chosen, "sstatus", hart.sstatus & 0xC0122);
    got_or_chosen(is_chosen, "vscause", read_csr(VSCAUSE));
    got_or_chosen(is_chosen, "vstval", read_csr(VSTVAL));
    got_or_chosen(is_chosen, "vsepc", place(read_csr(VSEPC)));
    got_or_chosen(is_chosen, "vsstatus", read_csr(VSSTATUS) & 0xC0122);
    got_or_chosen(is_chosen, "a2", hart.a2);
    got_or_chosen(is_chosen, "bytes", *(u64 *)(c.reached & ~7ul));
    chosen("htval", hart.htval);
    chosen("htinst", plain_htinst(c.word));
}

void one_case(u64 number)
{
    (void)number;
    c = (typeof(c)){ 0 };
    choose_kind();
    choose_status();
    choose_address();
    clear_tables();
    bool sets = write_tables();
    *(u64 *)(c.reached & ~7ul) = c.first_bytes = any();
    if (c.fetches) {
        *(u32 *)c.reached = ECALL;
        __asm__ volatile("fence.i" : : : "memory");
    }
    write_registers();
    hart.a0 = c.address;
    hart.a1 = c.operand = any();
    hart.a2 = 0x5A;
    const char *choice = c.is_misaligned ? "misaligned" : sets ? "svade" : c.is_failing_sc ? "sc"
        : c.has_extension ? "extension" : "-";
    tell(choice);
    make(c.mode, c.word, c.status, c.hypervisor);
    show(choice[0] != '-');
    clear_tables();
}
