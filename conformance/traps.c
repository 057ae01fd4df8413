/* Instructions that trap in some modes: what hstatus, hedeleg and the mode make of each, and SRET in VS. */
#include "case.h"

#define SRET 0x10200073
#define WFI 0x10500073
#define VTVM (1ul << 20)
#define VTW (1ul << 21)
#define VTSR (1ul << 22)

static const struct {
    const char *name;
    u32 word;
} instructions[16] = {
    { "nop", 0x13 }, { "ecall", ECALL }, { "ebreak", 0x00100073 }, { "sret", SRET }, { "mret", 0x30200073 },
    { "wfi", WFI }, { "sfence.vma", 0x12000073 }, { "sfence.vma", 0x12B50073 }, { "hfence.vvma", 0x22B50073 },
    { "hfence.gvma", 0x62B50073 }, { "hlv.d", 0x6C054673 }, { "hlvx.wu", 0x68354673 },
    { "hsv.d", 0x6EB54073 }, { "zeros", 0 }, { "ones", 0xFFFFFFFF }, { "fence.i", 0x0000100F }
};

static u64 datum;

static struct {
    const char *name;
    u32 word;
    enum mode mode;
    u64 hypervisor, delegated, status, epc;
    bool waits;
} c;

void prepare(void)
{
    write_csr(VSTVEC, stub_supervisor + 4);
    write_csr(VSATP, 0);
    write_csr(HGATP, 0);
    write_csr(SIE, 0);
}

/* ECALL in HS is a call, and a WFI of HS that nothing ends waits: neither is a case. In VS a pending
   interrupt that vsstatus.SIE keeps away ends each WFI. */
static void choose(void)
{
    u64 which = below(16);
    c.name = instructions[which].name;
    c.word = instructions[which].word;
    c.mode = c.word == ECALL || c.word == WFI ? 1 + below(3) : below(4);
    c.waits = c.word == WFI && c.mode == VS;
    c.hypervisor = any() & (VTVM | VTW | VTSR | HSTATUS_HU | HSTATUS_SPVP);
    c.delegated = any() & 0xB1FF;
    c.status = any() & 0xC0120 & (c.waits ? -1ul : 0xC0122);
    bool is_supervisor = (c.status & SSTATUS_SPP) != 0;
    c.epc = (u64)(is_supervisor ? stub_supervisor : stub_user) + 4;
}

static void tell(const char *choice)
{
    told(c.name);
    told(mode_names[c.mode]);
    told_number("hstatus", c.hypervisor);
    told_number("hedeleg", c.delegated);
    told_number("vsstatus", c.status);
    told_number("word", c.word);
    told_number("datum", datum);
    told_number("operand", hart.a1);
    told(choice);
    told(":");
}

/* What stval is, where it is an address: that of the instruction, or that of the datum. */
static u64 shown(u64 value, u64 epc)
{
    return value != 0 && value == epc ? 0xE0 : value == (u64)&datum ? 0xDA : value;
}

static void show(bool rests)
{
    got_or_chosen(rests, "cause", hart.cause);
    got_or_chosen(rests, "tval", shown(hart.tval, hart.epc));
    got_or_chosen(rests, "epc", place(hart.epc));
    got_or_chosen(rests, "hstatus", hart.hstatus & 0x7003C0);
    got_or_chosen(rests, "sstatus", hart.sstatus & 0xC0122);
    got_or_chosen(rests, "vscause", read_csr(VSCAUSE));
    got_or_chosen(rests, "vstval", shown(read_csr(VSTVAL), read_csr(VSEPC)));
    got_or_chosen(rests, "vsepc", place(read_csr(VSEPC)));
    got_or_chosen(rests, "vsstatus", read_csr(VSSTATUS) & 0xC0122);
    got_or_chosen(rests, "a2", hart.a2);
    got_or_chosen(rests, "datum", datum);
    chosen("htval", hart.htval);
    chosen("htinst", plain_htinst(c.word));
}

void one_case(u64 number)
{
    (void)number;
    choose();
    /* WFI in U and VU may end within a bounded time, where it would trap if it did not. */
    bool rests = c.word == WFI && !(c.mode == VS);
    datum = any();
    write_csr(HEDELEG, c.delegated);
    write_csr(VSSTATUS, c.status);
    write_csr(VSEPC, c.epc);
    write_csr(VSCAUSE, 0);
    write_csr(VSTVAL, 0);
    write_csr(HIDELEG, c.waits ? 4 : 0);
    write_csr(HIE, c.waits ? 4 : 0);
    write_csr(HVIP, c.waits ? 4 : 0);
    hart.a0 = (u64)&datum;
    hart.a1 = any();
    hart.a2 = 0x5A;
    tell(rests ? "wfi" : "-");
    make(c.mode, c.word, 0, c.hypervisor);
    show(rests);
    write_csr(HVIP, 0);
    write_csr(HIE, 0);
    __asm__ volatile("fence.i" : : : "memory");
}
