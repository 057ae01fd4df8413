/* Prints the CRC-32 of a text. Its exit code is 0 if that is the check value that is known of it, else 1. */
#include <stdint.h>

#define POLYNOMIAL 0xEDB88320u /* of IEEE 802.3, with the lowest bit first */
#define CHECK 0xCBF43926u      /* the CRC-32 of the text, by which programs of CRCs are compared */

static const char text[] = "123456789";

/* Call 1 puts a byte on the console. It answers 0, or -1 where the console is full. */
static long put(char byte)
{
    register long a0 __asm__("a0") = byte;
    register long a7 __asm__("a7") = 1;
    __asm__ volatile("ecall" : "+r"(a0) : "r"(a7) : "a1", "memory");
    return a0;
}

static void put_text(const char *letters)
{
    while (*letters != '\0')
        put(*letters++);
}

static void put_hexadecimal(uint32_t number)
{
    for (int shift = 28; shift >= 0; shift -= 4)
        put("0123456789abcdef"[number >> shift & 15]);
}

static uint32_t crc_of(const char *bytes)
{
    uint32_t crc = 0xFFFFFFFF;
    for (; *bytes != '\0'; bytes++) {
        crc ^= (uint8_t)*bytes;
        for (int bit = 0; bit < 8; bit++)
            crc = (crc & 1) != 0 ? crc >> 1 ^ POLYNOMIAL : crc >> 1;
    }
    return ~crc;
}

int main(void)
{
    uint32_t crc = crc_of(text);
    put_text("CRC-32 of \"");
    put_text(text);
    put_text("\" is ");
    put_hexadecimal(crc);
    return crc == CHECK ? 0 : 1;
}
