/* The CRC-32 of a buffer, by a table of 256 words, again and again: each round goes on from the CRC before it. */
#include "program.h"

#define LENGTH 90000

static uint32_t table[256];
static uint8_t buffer[LENGTH];

static void make_table(void)
{
    for (uint32_t byte = 0; byte < 256; byte++) {
        uint32_t crc = byte;
        for (int bit = 0; bit < 8; bit++)
            crc = (crc & 1) != 0 ? crc >> 1 ^ 0xEDB88320 : crc >> 1;
        table[byte] = crc;
    }
}

static uint32_t crc_of(uint32_t crc, const uint8_t *bytes, size_t length)
{
    crc = ~crc;
    for (size_t i = 0; i < length; i++)
        crc = table[(crc ^ bytes[i]) & 255] ^ crc >> 8;
    return ~crc;
}

uint64_t checksum(uint64_t rounds)
{
    uint64_t state = 1;
    uint32_t crc = 0;
    make_table();
    for (size_t i = 0; i < LENGTH; i++)
        buffer[i] = (uint8_t)next_random(&state);
    for (uint64_t round = 0; round < rounds; round++)
        crc = crc_of(crc, buffer, LENGTH);
    return crc;
}
