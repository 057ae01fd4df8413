/* Vectored handlers: at which entry of the tables of stvec and vstvec a trap begins. */
#include "case.h"

#define SSTATUS_SIE 2ul
#define SSTATUS_SPIE 0x20ul     /* is SIE after SRET */

static const struct {
    const char *name;
    u32 word;
} instructions[6] = {
    { "nop", 0x13 }, { "ebreak", 0x00100073 }, { "zeros", 0 }, { "mret", 0x30200073 },
    { "hlv.d", 0x6C054673 }, { "ecall", ECALL }
};

/* A case that ends in HS without a trap may leave SIE set. */
static void clear(void)
{
    write_csr(SSTATUS, 0);
    write_csr(SIE, 0);
    write_csr(HIE, 0);
    write_csr(HVIP, 0);
    write_csr(SIP, 0);
}

void prepare(void)
{
    write_csr(VSATP, 0);
    write_csr(HGATP, 0);
    clear();
}

static u64 datum;

static void tell(const char *name, enum mode mode, u64 status)
{
    told(name);
    told(mode_names[mode]);
    told_number("stvec", read_csr(STVEC) & 1);
    told_number("vstvec", read_csr(VSTVEC) & 1);
    told_number("sie", read_csr(SIE) & 0x222);
    told_number("hie", read_csr(HIE) & 0x444);
    told_number("sip", read_csr(SIP) & 0x222);
    told_number("hvip", read_csr(HVIP) & 0x444);
    told_number("hideleg", read_csr(HIDELEG) & 0x444);
    told_number("hedeleg", read_csr(HEDELEG) & 0xB1FF);
    told_number("sstatus", status);
    told_number("vsstatus", read_csr(VSSTATUS) & 0xC0122);
    told("-");
    told(":");
}

/* stval, with E0 for the address of the instruction. */
static u64 shown(u64 value, u64 epc) { return value != 0 && value == epc ? 0xE0 : value; }

static void show(void)
{
    got("cause", hart.cause);
    got("tval", shown(hart.tval, hart.epc));
    got("entry", hart.trapped);
    got("epc", place(hart.epc));
    got("hstatus", hart.hstatus & 0x7003C0);
    got("sstatus", hart.sstatus & 0xC0122);
    got("vscause", read_csr(VSCAUSE));
    got("vstval", shown(read_csr(VSTVAL), read_csr(VSEPC)));
    got("vsepc", place(read_csr(VSEPC)));
    got("vsstatus", read_csr(VSSTATUS) & 0xC0122);
}

static void write_registers(void)
{
    handler = (u64)vectors | below(2);
    write_csr(STVEC, handler);
    write_csr(VSTVEC, (u64)guest_vectors | below(2));
    write_csr(HIDELEG, any() & 0x444);
    write_csr(HEDELEG, any() & 0xB1FF);
    write_csr(HVIP, once_in(2) ? any() & any() & 0x444 : 0);
    write_csr(SIP, once_in(4) ? 2 : 0);
    write_csr(SIE, any() & 0x222);
    write_csr(HIE, any() & 0x444);
    write_csr(VSSTATUS, once_in(2) ? SSTATUS_SIE : 0);
    write_csr(VSCAUSE, 0);
    write_csr(VSTVAL, 0);
    write_csr(VSEPC, 0);
}

void one_case(u64 number)
{
    (void)number;
    enum mode mode = below(4);
    u64 which = below(mode == HS ? 5 : 6);      /* ECALL in HS is a call */
    u64 status = once_in(2) ? SSTATUS_SPIE : 0;
    write_registers();
    hart.a0 = (u64)&datum;
    tell(instructions[which].name, mode, status);
    make(mode, instructions[which].word, status, 0);
    show();
    clear();
}
