/* Horspool's search for parts of a generated text in it: of each part, how often it is there, and where. */
#include "program.h"

#define TEXT 65536
#define PATTERN 10
#define SEARCHES 6

static uint8_t text[TEXT];
static size_t shift[256];

/* Words of 1 to 8 letters. Small letters come more often than great ones do. */
static void make_text(uint64_t *state)
{
    for (size_t i = 0; i < TEXT;) {
        uint64_t random = next_random(state);
        for (uint64_t left = random % 8 + 1; left > 0 && i < TEXT; left--, i++) {
            random = next_random(state);
            text[i] = (uint8_t)('a' + random % 26 * (random >> 32 & 255) / 256);
        }
        if (i < TEXT)
            text[i++] = ' ';
    }
}

/* The sum of the places of the text at which the pattern stands, each with 1 added. */
static uint64_t places_of(const uint8_t *pattern)
{
    uint64_t sum = 0;
    for (size_t byte = 0; byte < 256; byte++)
        shift[byte] = PATTERN;
    for (size_t i = 0; i < PATTERN - 1; i++)
        shift[pattern[i]] = PATTERN - 1 - i;
    for (size_t place = 0; place + PATTERN <= TEXT; place += shift[text[place + PATTERN - 1]]) {
        size_t i = PATTERN;
        while (i > 0 && text[place + i - 1] == pattern[i - 1])
            i--;
        if (i == 0)
            sum += place + 1;
    }
    return sum;
}

uint64_t checksum(uint64_t rounds)
{
    uint64_t state = 1, sum = 0;
    make_text(&state);
    for (uint64_t search = 0; search < rounds * SEARCHES; search++)
        sum = sum * 31 + places_of(text + next_random(&state) % (TEXT - PATTERN + 1));
    return sum;
}
