/* Heapsort of pseudo-random numbers, other ones in each round. */
#include "program.h"

#define COUNT 4400

static uint64_t numbers[COUNT];

/* Lets the number at a place of a heap sink until no number below it is greater. */
static void sink(uint64_t *heap, size_t place, size_t count)
{
    uint64_t number = heap[place];
    for (size_t child = 2 * place + 1; child < count; child = 2 * place + 1) {
        if (child + 1 < count && heap[child] < heap[child + 1])
            child++;
        if (heap[child] <= number)
            break;
        heap[place] = heap[child];
        place = child;
    }
    heap[place] = number;
}

static void sort(uint64_t *heap, size_t count)
{
    for (size_t place = count / 2; place-- > 0;)
        sink(heap, place, count);
    for (size_t last = count - 1; last > 0; last--) {
        uint64_t greatest = heap[0];
        heap[0] = heap[last];
        heap[last] = greatest;
        sink(heap, 0, last);
    }
}

uint64_t checksum(uint64_t rounds)
{
    uint64_t state = 1, sum = 0;
    for (uint64_t round = 0; round < rounds; round++) {
        for (size_t i = 0; i < COUNT; i++)
            numbers[i] = next_random(&state);
        sort(numbers, COUNT);
        for (size_t i = 0; i < COUNT; i++)
            sum = sum * 31 + numbers[i];
    }
    return sum;
}
