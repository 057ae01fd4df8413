/* What the guests of the tests of `explore` share. Each ends well in its undisturbed run, and has one fault that shows
   in other runs that the architecture allows. The verdict is 0 where all is well. */
#include <stdint.h>

#define TIMER 0x20L
#define INPUT 0x200L
#define NEVER UINT64_MAX

#define CALL(number, value)                                                                                            \
    ({                                                                                                                 \
        register long a0 __asm__("a0") = (long)(value);                                                                \
        register long a7 __asm__("a7") = (number);                                                                     \
        __asm__ volatile("ecall" : "+r"(a0) : "r"(a7) : "a1", "memory");                                               \
        a0;                                                                                                            \
    })

static inline void set_timer(uint64_t moment)
{
    CALL(0, moment);
}

static inline uint64_t time(void)
{
    uint64_t now;
    __asm__ volatile("csrr %0, time" : "=r"(now));
    return now;
}

static inline void begin(void (*handler)(void), long bits)
{
    __asm__ volatile("csrw stvec, %0\n csrw sie, %1\n csrsi sstatus, 2" : : "r"(handler), "r"(bits));
}

static inline void end(void)
{
    __asm__ volatile("csrci sstatus, 2" : : : "memory");
}

/* Sleeps until this holds, which an interrupt makes so. None comes between the test and WFI, which ends by one that is
   pending. */
#define SLEEP_UNTIL(holds)                                                                                             \
    for (end(); !(holds); end())                                                                                       \
    __asm__ volatile("wfi\n csrsi sstatus, 2" : : : "memory")

static inline uint64_t mix(uint64_t value)
{
    for (int round = 0; round < 12; round++)
        value = value * 25 + 7;
    return value;
}
