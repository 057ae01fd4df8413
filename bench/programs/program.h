/* What the programs here share. */
#include <stdbool.h>
#include <stddef.h>
#include <stdint.h>

/* What a program computes in the given number of rounds, each of some 1,000,000 steps. */
uint64_t checksum(uint64_t rounds);

/* The next pseudo-random number, by shifts of 13, 7 and 17. The state is not 0. */
static inline uint64_t next_random(uint64_t *state)
{
    *state ^= *state << 13;
    *state ^= *state >> 7;
    *state ^= *state << 17;
    return *state;
}
