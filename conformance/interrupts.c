/* Interrupts: which of those that are pending is taken at an instruction that does nothing, and where. */
#include "case.h"

#define NOP 0x13
#define SSTATUS_SIE 2ul
#define SSTATUS_SPIE 0x20ul     /* is SIE after SRET */
#define FIRST_WITH_TIMER 131072 /* from this case on the timer of S may be pending too */

/* Call 0: STIP is pending from this moment on. */
static void set_timer(u64 moment)
{
    register u64 a0 __asm__("a0") = moment;
    register u64 a7 __asm__("a7") = 0;
    __asm__ volatile("ecall" : "+r"(a0) : "r"(a7) : "a1", "memory");
}

/* A case that ends in HS without a trap may leave SIE set. */
static void clear(void)
{
    write_csr(SSTATUS, 0);
    write_csr(SIE, 0);
    write_csr(HIE, 0);
    write_csr(HVIP, 0);
    write_csr(SIP, 0);
}

void prepare(void)
{
    write_csr(HEDELEG, 0);
    write_csr(VSTVEC, stub_supervisor + 4);
    clear();
}

static void tell(enum mode mode, u64 status)
{
    told("nop");
    told(mode_names[mode]);
    told_number("sie", read_csr(SIE) & 0x222);
    told_number("hie", read_csr(HIE) & 0x444);
    told_number("sip", read_csr(SIP) & 0x222);
    told_number("hvip", read_csr(HVIP) & 0x444);
    told_number("hideleg", read_csr(HIDELEG) & 0x444);
    told_number("sstatus", status);
    told_number("vsstatus", read_csr(VSSTATUS) & 0xC0122);
    told("-");
    told(":");
}

static void show(void)
{
    got("cause", hart.cause);
    got("tval", hart.tval);
    got("epc", place(hart.epc));
    got("hstatus", hart.hstatus & 0x7003C0);
    got("sstatus", hart.sstatus & 0xC0122);
    got("vscause", read_csr(VSCAUSE));
    got("vsepc", place(read_csr(VSEPC)));
    got("vsstatus", read_csr(VSSTATUS) & 0xC0122);
    got("hip", read_csr(HIP) & 0x444);
    got("vsie", read_csr(VSIE) & 0x222);
    got("vsip", read_csr(VSIP) & 0x222);
}

void one_case(u64 number)
{
    enum mode mode = below(4);
    u64 status = once_in(2) ? SSTATUS_SPIE : 0;
    write_csr(HIDELEG, any() & 0x444);
    write_csr(HVIP, any() & any() & 0x444);
    write_csr(SIP, once_in(4) ? 2 : 0);
    write_csr(SIE, any() & 0x222);
    write_csr(HIE, any() & 0x444);
    write_csr(VSSTATUS, once_in(2) ? SSTATUS_SIE : 0);
    write_csr(VSCAUSE, 0);
    write_csr(VSEPC, 0);
    hart.a2 = 0;
    bool is_timed = number >= FIRST_WITH_TIMER && once_in(2);
    if (is_timed)
        set_timer(0);
    tell(mode, status);
    make(mode, NOP, status, 0);
    show();
    clear();
    if (is_timed)
        set_timer(-1ul);
}
