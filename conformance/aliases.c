/* The registers of interrupts, which share their bits: what a write of one does to all, in HS and in VS. */
#include "case.h"

#define BITS 0x666ul            /* those of S and of VS */
#define SSTATUS_SIE 2ul

static const struct {
    const char *name;
    u64 number;
} registers[7] = {
    { "sie", SIE }, { "sip", SIP }, { "hie", HIE }, { "hip", HIP }, { "hvip", HVIP }, { "vsie", VSIE },
    { "vsip", VSIP }
};
static const char *const operations[3] = { "csrrw", "csrrs", "csrrc" };

static void clear(void)
{
    write_csr(SSTATUS, 0);
    write_csr(SIE, 0);
    write_csr(HIE, 0);
    write_csr(HVIP, 0);
    write_csr(SIP, 0);
}

void prepare(void)
{
    write_csr(HEDELEG, 0);
    write_csr(VSATP, 0);
    write_csr(HGATP, 0);
    write_csr(VSTVEC, stub_supervisor + 4);
    clear();
}

static void write_registers(void)
{
    write_csr(HIDELEG, any() & 0x444);
    write_csr(SIE, any() & 0x222);
    write_csr(HIE, any() & 0x444);
    write_csr(HVIP, any() & 0x444);
    write_csr(SIP, any() & 2);
    write_csr(VSSTATUS, any() & SSTATUS_SIE);
    write_csr(VSCAUSE, 0);
    write_csr(VSEPC, 0);
}

static void tell(const char *operation, enum mode mode, const char *name)
{
    told(operation);
    told(mode_names[mode]);
    told(name);
    told_number("value", hart.a1);
    told_number("hideleg", read_csr(HIDELEG) & 0x444);
    told_number("sie", read_csr(SIE) & 0x222);
    told_number("hie", read_csr(HIE) & 0x444);
    told_number("sip", read_csr(SIP) & 0x222);
    told_number("hvip", read_csr(HVIP) & 0x444);
    told_number("vsstatus", read_csr(VSSTATUS) & 0xC0122);
    told("-");
    told(":");
}

static void show(void)
{
    got("cause", hart.cause);
    got("epc", place(hart.epc));
    got("vscause", read_csr(VSCAUSE));
    got("vsepc", place(read_csr(VSEPC)));
    got("reads", hart.a2 & BITS);
    got("sie", read_csr(SIE) & BITS);
    got("sip", read_csr(SIP) & BITS);
    got("hie", read_csr(HIE) & BITS);
    got("hip", read_csr(HIP) & BITS);
    got("hvip", read_csr(HVIP) & BITS);
    got("vsie", read_csr(VSIE) & BITS);
    got("vsip", read_csr(VSIP) & BITS);
}

/* Interrupts are off in HS. In VS those that come to HS are on, so one may come before the instruction, or
   behind it: the instruction writes a register on which interrupts depend. */
void one_case(u64 number)
{
    (void)number;
    enum mode mode = once_in(2) ? HS : VS;
    u64 which = below(mode == HS ? 7 : 2), operation = below(3);
    write_registers();
    hart.a1 = any();
    hart.a2 = 0;
    tell(operations[operation], mode, registers[which].name);
    make(mode, (u32)registers[which].number << 20 | (u32)(operation + 1) << 12 | 0x00058673, 0, 0);
    show();
    clear();
}
