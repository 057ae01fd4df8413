/* Counts in main and in the timer's handler, with no lock: a tick between load and store is lost. */
#include "explored.h"

static volatile int total, ticks;

__attribute__((interrupt("supervisor"), aligned(4))) static void on_timer(void)
{
    total++;
    ticks++;
    set_timer(NEVER);
}

int main(void)
{
    uint64_t value = 1;

    set_timer(150);
    begin(on_timer, TIMER);
    for (int done = 0; done < 6; done++) {
        value = mix(value);
        total++;
    }
    SLEEP_UNTIL(ticks);
    return total == 6 + ticks && value != 0 ? 0 : 3;
}
