/* WFI is taken to end only by the interrupt. */
#include "explored.h"

static volatile int ticks;

__attribute__((interrupt("supervisor"), aligned(4))) static void on_timer(void)
{
    ticks++;
    set_timer(NEVER);
}

int main(void)
{
    set_timer(500);
    begin(on_timer, TIMER);
    __asm__ volatile("wfi" : : : "memory");
    end();
    return ticks == 1 ? 0 : 3;
}
