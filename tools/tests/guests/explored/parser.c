/* A kernel that reads commands `set NAME=NUMBER;` from its console, and keeps the last number. A name that is too long
   overflows its buffer. */
#include <stdint.h>

#define CALL(number, value)                                                                                            \
    ({                                                                                                                 \
        register long a0 __asm__("a0") = (long)(value);                                                                \
        register long a7 __asm__("a7") = (number);                                                                     \
        __asm__ volatile("ecall" : "+r"(a0) : "r"(a7) : "a1", "memory");                                               \
        a0;                                                                                                            \
    })

static long next_byte(void)
{
    return CALL(2, 0); /* -1 where there is no more */
}

/* Takes the word `set `, and says whether it was there. */
static int is_set(long byte)
{
    for (const char *word = "set "; *word; word++) {
        if (byte != *word)
            return 0;
        byte = word[1] ? next_byte() : byte;
    }
    return 1;
}

__attribute__((noinline)) static long command(void)
{
    volatile char name[8];
    unsigned at = 0;
    long byte, number = 0;

    while ((byte = next_byte()) != '=') {
        if (byte < 0)
            return -1;
        name[at++] = (char)byte; /* the fault: at may be 8 and more */
    }
    while ((byte = next_byte()) != ';') {
        if (byte < '0' || byte > '9')
            return -1;
        number = 10 * number + byte - '0';
    }
    return number + name[0];
}

int main(void)
{
    long last = 0;

    for (long byte = next_byte(); byte >= 0; byte = next_byte())
        if (is_set(byte))
            last = command();
    CALL(1, last < 0 ? '?' : '.');
    return 0;
}
