/* The clock: where time can be read in each mode, and that V = 1 reads it with htimedelta added. */
#include "case.h"

#define TM 2ul
#define READ 0xC0102673         /* csrr a2, time */
#define WRITE 0xC0159673        /* csrrw a2, time, a1 */

void prepare(void)
{
    write_csr(HEDELEG, 0);
    write_csr(VSATP, 0);
    write_csr(HGATP, 0);
    write_csr(VSTVEC, stub_supervisor + 4);
}

/* Differences for which the sum is small, large, or wraps round. */
static u64 any_delta(void)
{
    u64 value = any();
    switch (below(4)) {
    case 0: return value >> (value & 63);
    case 1: return -(value >> (value & 63));
    case 2: return -read_csr(TIME) + (value & 0xFFFF);
    default: return value;
    }
}

void one_case(u64 number)
{
    (void)number;
    enum mode mode = below(4);
    bool writes = once_in(8);
    u64 counters = any() & TM, guest_counters = any() & TM, delta = any_delta();
    write_csr(SCOUNTEREN, guest_counters);
    write_csr(HCOUNTEREN, counters);
    write_csr(HTIMEDELTA, delta);
    told(writes ? "csrrw" : "csrr");
    told(mode_names[mode]);
    told_number("hcounteren", counters);
    told_number("scounteren", guest_counters);
    told("-");
    told(":");
    hart.a2 = 0;
    u64 before = read_csr(TIME);
    make(mode, writes ? WRITE : READ, 0, any() & 0x700000);
    u64 after = read_csr(TIME);
    u64 sum = mode >= VS ? before + delta : before;
    bool ended = hart.cause == 8 || hart.cause == 10 || hart.cause == NO_TRAP;
    got("cause", hart.cause);
    got("tval", hart.tval);
    got("epc", place(hart.epc));
    got("within", ended ? hart.a2 - sum <= after - before : hart.a2 == 0);
    write_csr(SCOUNTEREN, 0);
    write_csr(HCOUNTEREN, 0);
    write_csr(HTIMEDELTA, 0);
}
