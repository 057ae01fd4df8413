/* The calls of the RISC-V Supervisor Binary Interface, version 2.0, for one hart. a7 has the extension, a6
   the function, a0 to a5 the arguments. Afterwards a0 is an error and a1 a value; a legacy call has only a
   value, in a0. */
#include "machine.h"

#define VERSION (2UL << 24)
#define IMPLEMENTATION 0x6E657374 /* none of those that have a number; "nest" */

enum { SUCCESS = 0, FAILED = -1, NOT_SUPPORTED = -2, INVALID_PARAM = -3, ALREADY_AVAILABLE = -6 };

enum {
    BASE = 0x10,
    TIME = 0x54494D45,
    IPI = 0x735049,
    RFENCE = 0x52464E43,
    HSM = 0x48534D,
    DBCN = 0x4442434E,
    SRST = 0x53525354,
};

struct answer {
    long error;
    uint64_t value;
};

static struct answer error(long code)
{
    return (struct answer){code, 0};
}

static struct answer value(uint64_t value)
{
    return (struct answer){SUCCESS, value};
}

/* The guest's timer is the hypervisor's until it comes. */
static struct answer set_timer(uint64_t moment)
{
    environment(SET_TIMER, moment);
    __asm__ volatile("csrc hvip, %0" : : "r"(VSTIP));
    __asm__ volatile("csrs sie, %0" : : "r"(STIP));
    return error(SUCCESS);
}

static bool is_present(uint64_t extension)
{
    switch (extension) {
    case SET_TIMER: /* the legacy calls, each an extension of its own */
    case PUT:
    case GET:
    case STOP:
    case BASE:
    case TIME:
    case IPI:
    case RFENCE:
    case HSM:
    case DBCN:
    case SRST:
        return true;
    default:
        return false;
    }
}

static struct answer base(uint64_t function, uint64_t extension)
{
    switch (function) {
    case 0: /* sbi_get_spec_version */
        return value(VERSION);
    case 1: /* sbi_get_impl_id */
        return value(IMPLEMENTATION);
    case 2: /* sbi_get_impl_version */
        return value(1);
    case 3: /* sbi_probe_extension */
        return value(is_present(extension));
    case 4: /* sbi_get_mvendorid */
    case 5: /* sbi_get_marchid */
    case 6: /* sbi_get_mimpid */
        return value(0);
    default:
        return error(NOT_SUPPORTED);
    }
}

/* What a mask of harts and its first hart name: hart 0, nothing, or a hart that there is not. */
enum target { SELF, NOBODY, ABSENT };

static enum target target(uint64_t mask, uint64_t first)
{
    if (first == ~0UL) /* all harts, whatever the mask */
        return SELF;
    if (mask == 0)
        return NOBODY;
    return mask == 1 && first == 0 ? SELF : ABSENT;
}

static struct answer send_interrupt(uint64_t mask, uint64_t first)
{
    enum target to = target(mask, first);
    if (to == ABSENT)
        return error(INVALID_PARAM);
    if (to == SELF)
        __asm__ volatile("csrs hvip, %0" : : "r"(VSSIP));
    return error(SUCCESS);
}

/* With one hart each remote fence is a local one. One of all addresses does what one of a range has to do. */
static struct answer fence(uint64_t function, uint64_t mask, uint64_t first)
{
    if (function > 2) /* the fences of hypervisors: this guest has no hypervisor extension */
        return error(NOT_SUPPORTED);
    enum target to = target(mask, first);
    if (to == ABSENT)
        return error(INVALID_PARAM);
    if (to == SELF && function == 0) /* sbi_remote_fence_i */
        __asm__ volatile("fence.i" : : : "memory");
    else if (to == SELF) /* sbi_remote_sfence_vma and sbi_remote_sfence_vma_asid: HFENCE.VVMA */
        __asm__ volatile(".insn r 0x73, 0, 0x11, x0, x0, x0" : : : "memory");
    return error(SUCCESS);
}

static struct answer hart_state(uint64_t function, uint64_t argument)
{
    switch (function) {
    case 0: /* sbi_hart_start */
        return error(argument == 0 ? ALREADY_AVAILABLE : INVALID_PARAM);
    case 1: /* sbi_hart_stop: the only hart, and nobody could start it again */
        exit(0);
        return error(FAILED);
    case 2: /* sbi_hart_get_status: 0 is started */
        return argument == 0 ? value(0) : error(INVALID_PARAM);
    case 3: /* sbi_hart_suspend: only until the next interrupt, with all registers kept */
        if ((uint32_t)argument != 0)
            return error(NOT_SUPPORTED);
        __asm__ volatile("wfi" : : : "memory");
        return error(SUCCESS);
    default:
        return error(NOT_SUPPORTED);
    }
}

static struct answer write_bytes(const uint8_t *from, uint64_t count)
{
    for (uint64_t written = 0; written < count; written++) {
        if (environment(PUT, from[written]) != 0)
            return written > 0 ? value(written) : error(FAILED); /* the console is full */
    }
    return value(count);
}

static struct answer read_bytes(uint8_t *to, uint64_t count)
{
    uint64_t read = 0;
    for (long byte; read < count && (byte = environment(GET, 0)) >= 0; read++)
        to[read] = (uint8_t)byte;
    return value(read);
}

static struct answer console(uint64_t function, const uint64_t *arguments)
{
    uint64_t count = arguments[0], address = arguments[1];
    if (function == 2) /* sbi_debug_console_write_byte */
        return error(environment(PUT, count & 0xFF) == 0 ? SUCCESS : FAILED);
    if (function > 2)
        return error(NOT_SUPPORTED);
    if (arguments[2] != 0 || address < GUEST_RAM || address > guest_end || count > guest_end - address)
        return error(INVALID_PARAM);
    uint8_t *bytes = (uint8_t *)address;
    return function == 0 ? write_bytes(bytes, count) : read_bytes(bytes, count);
}

/* Reason 1 is a failure of the system: then the guest's verdict is 1. */
static struct answer reset(uint64_t function, uint64_t type, uint64_t reason)
{
    if (function != 0)
        return error(NOT_SUPPORTED);
    if ((uint32_t)type > 2 || (uint32_t)reason > 1)
        return error(INVALID_PARAM);
    if ((uint32_t)type != 0) /* a reboot, cold or warm */
        return error(NOT_SUPPORTED);
    exit((long)(uint32_t)reason);
    return error(FAILED);
}

static struct answer answer_to(uint64_t extension, uint64_t function, const uint64_t *arguments)
{
    switch (extension) {
    case BASE:
        return base(function, arguments[0]);
    case TIME:
        return function == 0 ? set_timer(arguments[0]) : error(NOT_SUPPORTED);
    case IPI:
        return function == 0 ? send_interrupt(arguments[0], arguments[1]) : error(NOT_SUPPORTED);
    case RFENCE:
        return fence(function, arguments[0], arguments[1]);
    case HSM:
        return hart_state(function, arguments[0]);
    case DBCN:
        return console(function, arguments);
    case SRST:
        return reset(function, arguments[0], arguments[1]);
    default:
        return error(NOT_SUPPORTED);
    }
}

void answer(void)
{
    uint64_t *registers = guest.registers;
    switch (registers[A7]) {
    case SET_TIMER:
        registers[A0] = (uint64_t)set_timer(registers[A0]).error;
        return;
    case PUT:
    case GET:
        registers[A0] = (uint64_t)environment((long)registers[A7], registers[A0]);
        return;
    case STOP:
        environment(STOP, 0);
        return;
    default: {
        struct answer made = answer_to(registers[A7], registers[A6], &registers[A0]);
        registers[A0] = (uint64_t)made.error;
        registers[A1] = made.value;
    }
    }
}
