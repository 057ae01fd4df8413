/* Sleeps until the timer or an input wakes it, and takes both interrupts in C. Puts a dot a tick, and the inputs. */
#include <stdint.h>

#define PERIOD 1000
#define TICKS 3
#define SIE_OF_SSTATUS 2
#define TIMER 5
#define INPUT 9

static volatile int ticks = 0;

void show_trap(void); /* examples/traps/handler.s: prints why the guest trapped, and stops it */

/* A call of the environment: its number in a7, its argument and answer in a0. */
static long call(long number, long argument)
{
    register long a0 __asm__("a0") = argument;
    register long a7 __asm__("a7") = number;
    __asm__ volatile("ecall" : "+r"(a0) : "r"(a7) : "a1", "memory");
    return a0;
}

/* The attribute has gcc keep each register that the function changes, and end it by SRET. Its address goes into stvec,
   whose two lowest bits are not part of the address. */
__attribute__((interrupt("supervisor"), aligned(4))) static void on_trap(void)
{
    int64_t cause;
    long byte;
    __asm__ volatile("csrr %0, scause" : "=r"(cause));
    if (cause >= 0) {
        show_trap();
    } else if ((cause & 0xFF) == TIMER) {
        ticks++;
        call(0, (ticks + 1L) * PERIOD); /* the interrupt ends when the timer is set ahead */
        call(1, '.');
    } else {
        while ((byte = call(2, 0)) >= 0) /* the interrupt ends when all inputs that came are read */
            call(1, byte);
    }
}

int main(void)
{
    __asm__ volatile("csrw stvec, %0" : : "r"(on_trap));
    __asm__ volatile("csrw sie, %0" : : "r"(1L << TIMER | 1L << INPUT));
    call(0, PERIOD);
    while (ticks < TICKS) {
        /* WFI wakes though SIE is clear, and the interrupt is taken at `csrsi`. So none comes between test and WFI. */
        __asm__ volatile("csrci sstatus, %0" : : "i"(SIE_OF_SSTATUS) : "memory");
        if (ticks < TICKS)
            __asm__ volatile("wfi" : : : "memory");
        __asm__ volatile("csrsi sstatus, %0" : : "i"(SIE_OF_SSTATUS) : "memory");
    }
    __asm__ volatile("csrci sstatus, %0" : : "i"(SIE_OF_SSTATUS) : "memory");
    return 0;
}
