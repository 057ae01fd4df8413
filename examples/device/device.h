/* A driver of the device page: a console at one page of physical addresses, which a guest with `device = 1` has. */
#include <stdint.h>

#define DEVICE_PAGE 0x10000000UL
#define STATUS_AT 8
#define HAS_INPUT 1 /* bits of the status */
#define HAS_ROOM 2

/* The page serves a byte at its first place, and a doubleword at STATUS_AT; all else there is an access fault. */
static inline uint64_t device_status(void)
{
    return *(volatile uint64_t *)(DEVICE_PAGE + STATUS_AT);
}

/* Puts a byte, or tells that the console is full. */
static inline int device_put(char byte)
{
    if ((device_status() & HAS_ROOM) == 0)
        return -1;
    *(volatile uint8_t *)DEVICE_PAGE = (uint8_t)byte;
    return 0;
}

/* Reads the input that has come, or tells that there is none. */
static inline int device_get(void)
{
    if ((device_status() & HAS_INPUT) == 0)
        return -1;
    return *(volatile uint8_t *)DEVICE_PAGE;
}
