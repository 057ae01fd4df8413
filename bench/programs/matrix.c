/* Products of matrices of 64-bit numbers that wrap: in each round the product so far times another matrix. */
#include "program.h"

#define SIZE 52

static uint64_t first[SIZE][SIZE], second[SIZE][SIZE], product[SIZE][SIZE];

static void multiply(void)
{
    for (size_t row = 0; row < SIZE; row++)
        for (size_t column = 0; column < SIZE; column++) {
            uint64_t sum = 0;
            for (size_t i = 0; i < SIZE; i++)
                sum += first[row][i] * second[i][column];
            product[row][column] = sum;
        }
}

uint64_t checksum(uint64_t rounds)
{
    uint64_t state = 1, sum = 0;
    for (size_t row = 0; row < SIZE; row++)
        for (size_t column = 0; column < SIZE; column++) {
            first[row][column] = next_random(&state);
            second[row][column] = next_random(&state);
        }
    for (uint64_t round = 0; round < rounds; round++) {
        multiply();
        for (size_t row = 0; row < SIZE; row++)
            for (size_t column = 0; column < SIZE; column++)
                first[row][column] = product[row][column];
    }
    for (size_t row = 0; row < SIZE; row++)
        for (size_t column = 0; column < SIZE; column++)
            sum = sum * 31 + first[row][column];
    return sum;
}
