/* The console by the legacy calls of the SBI, as a serial driver of U-Boot. U-Boot 2023.01 has one for its first lines
   alone, which reads nothing. It needs no node of the device tree. */
#include <common.h>
#include <dm.h>
#include <serial.h>
#include <asm/sbi.h>

#define NONE -1

/* The byte that has been read to see whether there is one. */
struct console {
    long kept;
};

static long call(int extension, unsigned long argument)
{
    return sbi_ecall(extension, 0, argument, 0, 0, 0, 0, 0).error;
}

static int probe(struct udevice *device)
{
    struct console *console = dev_get_priv(device);
    console->kept = NONE;
    return 0;
}

static int put(struct udevice *device, const char byte)
{
    call(SBI_EXT_0_1_CONSOLE_PUTCHAR, byte);
    return 0;
}

static int pending(struct udevice *device, bool input)
{
    struct console *console = dev_get_priv(device);
    if (input && console->kept == NONE)
        console->kept = call(SBI_EXT_0_1_CONSOLE_GETCHAR, 0);
    return input && console->kept != NONE;
}

static int get(struct udevice *device)
{
    struct console *console = dev_get_priv(device);
    long byte = console->kept;
    if (!pending(device, true))
        return -EAGAIN;
    byte = console->kept;
    console->kept = NONE;
    return byte;
}

static const struct dm_serial_ops operations = {
    .getc = get,
    .putc = put,
    .pending = pending,
};

U_BOOT_DRIVER(serial_legacy) = {
    .name = "serial_legacy",
    .id = UCLASS_SERIAL,
    .probe = probe,
    .priv_auto = sizeof(struct console),
    .ops = &operations,
    .flags = DM_FLAG_PRE_RELOC,
};

U_BOOT_DRVINFO(serial_legacy) = {
    .name = "serial_legacy",
};
