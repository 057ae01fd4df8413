/* Copies 2 MiB to another place and clears them, as often as the argument says, between two places in turn, in plain C,
   for comparison. */
#include <stdint.h>
#include <stdio.h>
#include <stdlib.h>
#include <string.h>

#define SIZE ((size_t)2097152)

int main(int argc, char **argv) {
    uint64_t count = argc > 1 ? strtoull(argv[1], NULL, 10) : 1000;
    uint8_t *memory = calloc(2, SIZE);
    if (memory == NULL)
        return 5;
    for (uint64_t i = 0; i < count; i++) {
        uint8_t *from = memory + i % 2 * SIZE;
        uint8_t *to = memory + (i + 1) % 2 * SIZE;
        from[i % SIZE] = 1;
        memcpy(to, from, SIZE);
        memset(from, 0, SIZE);
    }
    printf("copies %llu\n", (unsigned long long)count);
    free(memory);
    return 0;
}
