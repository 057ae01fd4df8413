/* The handler of the timer lets an input interrupt it before it has read sepc. */
#include "explored.h"

volatile int ticks, inputs;

void on_interrupt(void);
__asm__(".balign 4\non_interrupt:\n"
        "addi sp, sp, -48\n sd a0, 0(sp)\n sd a7, 8(sp)\n sd t0, 16(sp)\n sd t1, 24(sp)\n sd a1, 40(sp)\n"
        "csrr t1, scause\n andi t1, t1, 15\n li t0, 9\n beq t0, t1, 1f\n"
        "li a0, -1\n li a7, 0\n ecall\n"
        "csrsi sstatus, 2\n" /* an input is served at once */
        "la t0, ticks\n lw t1, 0(t0)\n addi t1, t1, 1\n sw t1, 0(t0)\n"
        "csrci sstatus, 2\n csrr t0, sepc\n j 2f\n"
        "1: csrr t0, sepc\n sd t0, 32(sp)\n li a7, 2\n ecall\n la t0, inputs\n li t1, 1\n sw t1, 0(t0)\n ld t0, 32(sp)\n"
        "2: csrw sepc, t0\n li t0, 0x100\n csrs sstatus, t0\n"
        "ld a0, 0(sp)\n ld a7, 8(sp)\n ld t0, 16(sp)\n ld t1, 24(sp)\n ld a1, 40(sp)\n addi sp, sp, 48\n sret");

int main(void)
{
    set_timer(150);
    begin(on_interrupt, TIMER | INPUT);
    SLEEP_UNTIL(ticks && inputs);
    return 0;
}
