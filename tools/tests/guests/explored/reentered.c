/* The handler lets interrupts nest, and does not forbid them again before it writes sepc at its end. */
#include "explored.h"

volatile int ticks;

void on_timer(void);
__asm__(".balign 4\non_timer:\n"
        "addi sp, sp, -48\n sd a0, 0(sp)\n sd a7, 8(sp)\n sd t0, 16(sp)\n sd t1, 24(sp)\n sd a1, 40(sp)\n"
        "csrr t0, sepc\n sd t0, 32(sp)\n"
        "la t0, ticks\n lw t1, 0(t0)\n addi t1, t1, 1\n sw t1, 0(t0)\n"
        "csrr a0, time\n addi a0, a0, 200\n li t0, 3\n blt t1, t0, 1f\n li a0, -1\n"
        "1: li a7, 0\n ecall\n"
        "csrsi sstatus, 2\n" /* the rest of the work may be interrupted */
        "ld t0, 32(sp)\n csrw sepc, t0\n li t0, 0x100\n csrs sstatus, t0\n"
        "ld a0, 0(sp)\n ld a7, 8(sp)\n ld t0, 16(sp)\n ld t1, 24(sp)\n ld a1, 40(sp)\n addi sp, sp, 48\n sret");

int main(void)
{
    set_timer(150);
    begin(on_timer, TIMER);
    SLEEP_UNTIL(ticks >= 3);
    return 0;
}
