/* An SC that fails is not tried again. */
#include "explored.h"

static int count;

int main(void)
{
    for (int done = 0; done < 6; done++)
        __asm__ volatile("lr.w t0, (%0)\n addi t0, t0, 1\n sc.w t1, t0, (%0)" : : "r"(&count) : "t0", "t1", "memory");
    return *(volatile int *)&count == 6 ? 0 : 3;
}
