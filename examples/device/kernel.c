/* A kernel whose console is the device page: it asks for a name, and greets. */
#include "device.h"

static void put_text(const char *text)
{
    while (*text != '\0')
        device_put(*text++);
}

static char get(void)
{
    int byte;
    do
        byte = device_get();
    while (byte < 0);
    return (char)byte;
}

int main(void)
{
    char byte;
    put_text("Your name? ");
    while ((byte = get()) == ' ')
        ;
    put_text("Hello, ");
    for (; byte != '\n'; byte = get())
        device_put(byte);
    put_text("!\n");
    return 0;
}
