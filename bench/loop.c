/* The instruction 0x0000006F (jal zero, 0) interpreted as often as the argument says, in plain C, for comparison:
   fetch with its bounds, decode of ADDI, LUI and JAL, and the count of steps. */
#include <stdint.h>
#include <stdio.h>
#include <stdlib.h>
#include <string.h>

#define BASE UINT64_C(0x80000000)
#define SIZE UINT64_C(2097152)

struct machine {
    uint64_t x[32];
    uint64_t pc;
    uint64_t steps;
    uint64_t trace;
    uint8_t *ram;
};

/* One step, or 0 where it is outside the set. */
static int step(struct machine *m) {
    uint64_t at = m->pc - BASE;
    if (m->pc % 4 != 0 || m->pc < BASE || at > SIZE - 4)
        return 0;
    uint32_t word;
    memcpy(&word, m->ram + at, 4);
    uint32_t rd = word >> 7 & 31;
    uint64_t value, next = m->pc + 4;
    switch (word & 0x7F) {
    case 0x13:
        if ((word >> 12 & 7) != 0)
            return 0;
        value = m->x[word >> 15 & 31] + (uint64_t)((int64_t)(int32_t)word >> 20);
        break;
    case 0x37:
        value = (uint64_t)(int64_t)(int32_t)(word & 0xFFFFF000);
        break;
    case 0x6F:
        value = next;
        next = m->pc + ((uint64_t)((int64_t)(int32_t)(word & 0x80000000) >> 11) | (word & 0xFF000) |
                        (word >> 9 & 0x800) | (word >> 20 & 0x7FE));
        if (next % 4 != 0)
            return 0;
        break;
    default:
        return 0;
    }
    if (rd != 0)
        m->x[rd] = value;
    m->trace += m->pc + word;
    m->pc = next;
    m->steps++;
    return 1;
}

int main(int argc, char **argv) {
    uint64_t limit = argc > 1 ? strtoull(argv[1], NULL, 10) : 10000000;
    struct machine m = {.pc = BASE, .ram = calloc(1, SIZE)};
    if (m.ram == NULL)
        return 5;
    memcpy(m.ram, "\x6F\x00\x00\x00", 4);
    while (m.steps < limit && step(&m)) {
    }
    printf("steps %llu trace %llx\n", (unsigned long long)m.steps, (unsigned long long)m.trace);
    free(m.ram);
    return 0;
}
