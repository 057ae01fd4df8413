/* The handler changes t2, and does not put it back. */
#include "explored.h"

volatile int ticks;

void on_timer(void);
__asm__(".balign 4\non_timer:\n"
        "addi sp, sp, -32\n sd a0, 0(sp)\n sd a7, 8(sp)\n sd t0, 16(sp)\n sd a1, 24(sp)\n"
        "li a0, -1\n li a7, 0\n ecall\n"
        "la t0, ticks\n lw t2, 0(t0)\n addi t2, t2, 1\n sw t2, 0(t0)\n"
        "ld a0, 0(sp)\n ld a7, 8(sp)\n ld t0, 16(sp)\n ld a1, 24(sp)\n addi sp, sp, 32\n sret");

int main(void)
{
    long sum = 0;

    set_timer(150);
    begin(on_timer, TIMER);
    for (int done = 0; done < 6; done++)
        __asm__ volatile("li t2, 7\n nop\n add %0, %0, t2" : "+r"(sum) : : "t2");
    SLEEP_UNTIL(ticks);
    return sum == 42 ? 0 : 3;
}
