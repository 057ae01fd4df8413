/* SRET in each mode and state: from HS to each mode, from VS to VS and VU, and in U and VU, which trap. */
#include "case.h"

#define SRET 0x10200073
#define STATUS_BITS 0xC0122ul
#define HYPERVISOR_BITS 0x7003C0ul
#define NOWHERE 0x1000000000ul  /* outside RAM */

static struct {
    enum mode mode, next;       /* where SRET is, and where it goes if it does not trap */
    u64 status, guest_status, hypervisor, delegated, target;
} c;

void prepare(void)
{
    write_csr(VSTVEC, stub_supervisor + 4);
    write_csr(VSATP, 0);
    write_csr(HGATP, 0);
    write_csr(SIE, 0);
    write_csr(HIE, 0);
}

static void choose(void)
{
    c.mode = once_in(2) ? HS : 1 + below(3);
    c.status = any() & STATUS_BITS & (c.mode == HS ? -1ul : ~SSTATUS_SPP);
    c.guest_status = any() & STATUS_BITS;
    c.hypervisor = any() & HYPERVISOR_BITS & (c.mode == HS ? -1ul : ~HSTATUS_SPV);
    c.delegated = any() & 0xB1FF;
    bool is_virtual = c.mode >= VS || (c.hypervisor & HSTATUS_SPV) != 0;
    bool is_supervisor = ((c.mode >= VS ? c.guest_status : c.status) & SSTATUS_SPP) != 0;
    c.next = is_virtual ? (is_supervisor ? VS : VU) : is_supervisor ? HS : U;
    c.target = once_in(8) ? NOWHERE : (u64)(stub_of(c.next) + 1);
}

static void tell(void)
{
    told("sret");
    told(mode_names[c.mode]);
    told("to");
    told(mode_names[c.next]);
    told_number("at", place(c.target));
    told_number("sstatus", c.status);
    told_number("vsstatus", c.guest_status);
    told_number("hstatus", c.hypervisor);
    told_number("hedeleg", c.delegated);
    told("-");
    told(":");
}

/* HS writes its own registers just before its SRET, which are in a0 to a2. In another mode they are written
   before the mode is entered. */
static void make_return(void)
{
    static const u32 words[4] = { 0x14161073, 0x60059073, 0x10051073, SRET };
    if (c.mode == HS) {
        hart.a0 = c.status;
        hart.a1 = c.hypervisor;
        hart.a2 = c.target;
        make_all(HS, words, 4, 0, 0);
    } else {
        write_csr(VSEPC, c.target);
        make(c.mode, SRET, c.status, c.hypervisor);
    }
}

static void show(void)
{
    got("cause", hart.cause);
    got("tval", hart.tval);
    got("epc", place(hart.epc));
    got("hstatus", hart.hstatus & HYPERVISOR_BITS);
    got("sstatus", hart.sstatus & STATUS_BITS);
    got("vscause", read_csr(VSCAUSE));
    got("vstval", read_csr(VSTVAL));
    got("vsepc", place(read_csr(VSEPC)));
    got("vsstatus", read_csr(VSSTATUS) & STATUS_BITS);
    chosen("htval", hart.htval);
    chosen("htinst", hart.htinst);
}

void one_case(u64 number)
{
    (void)number;
    choose();
    write_csr(HEDELEG, c.delegated);
    write_csr(VSSTATUS, c.guest_status);
    write_csr(VSCAUSE, 0);
    write_csr(VSTVAL, 0);
    write_csr(VSEPC, 0);
    tell();
    make_return();
    show();
    write_csr(SSTATUS, 0);
}
