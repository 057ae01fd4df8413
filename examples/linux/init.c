/* The first process: it shows processes, a timer and typed input, and runs two examples as virtual machines by
   /dev/kvm. It makes the kernel's calls itself, since Debian's C library for riscv64 has compressed instructions and
   floating point. */
#include <asm/signal.h>
#include <asm/unistd.h>
#include <linux/fcntl.h>
#include <linux/kvm.h>
#include <linux/mman.h>
#include <linux/reboot.h>
#include <linux/time.h>
#include <linux/utsname.h>
#include <stdbool.h>
#include <stddef.h>
#include <stdint.h>

#define CHILDREN 3
#define TICKS 3
#define TICK_MICROSECONDS 20000
#define GUEST_RAM 0x80000000UL
#define GUEST_BYTES 0x200000UL

/* The legacy calls of the SBI, which the examples make and KVM hands on. */
enum { PUT = 1, GET = 2 };

__asm__(".globl _start\n"
        "_start:\n"
        "    andi sp, sp, -16\n"
        "    call first_process\n");

static long call(long number, const long *arguments)
{
    register long a0 __asm__("a0") = arguments[0];
    register long a1 __asm__("a1") = arguments[1];
    register long a2 __asm__("a2") = arguments[2];
    register long a3 __asm__("a3") = arguments[3];
    register long a4 __asm__("a4") = arguments[4];
    register long a5 __asm__("a5") = arguments[5];
    register long a7 __asm__("a7") = number;
    __asm__ volatile("ecall"
                     : "+r"(a0)
                     : "r"(a1), "r"(a2), "r"(a3), "r"(a4), "r"(a5), "r"(a7)
                     : "memory");
    return a0;
}

/* A call of the kernel; arguments that are left out are 0. A negative answer is an error. */
#define CALL(name, ...) call(__NR_##name, (const long[6]){__VA_ARGS__})

/* gcc calls it to set structs to zero. */
void *memset(void *to, int byte, size_t bytes)
{
    for (size_t at = 0; at < bytes; at++)
        ((char *)to)[at] = (char)byte;
    return to;
}

static size_t length(const char *text)
{
    size_t bytes = 0;
    while (text[bytes] != '\0')
        bytes++;
    return bytes;
}

static void say(const char *text)
{
    CALL(write, 1, (long)text, (long)length(text));
}

static void say_number(long number)
{
    char digits[24];
    size_t at = sizeof digits - 1;
    unsigned long left = number < 0 ? -(unsigned long)number : (unsigned long)number;
    digits[at] = '\0';
    do
        digits[--at] = (char)('0' + left % 10);
    while ((left /= 10) != 0);
    if (number < 0)
        digits[--at] = '-';
    say(&digits[at]);
}

/* What an error of the kernel was about. */
static void say_error(const char *what, long error)
{
    say(what);
    say(": error ");
    say_number(error);
    say("\n");
}

static long opened(const char *path, long flags)
{
    return CALL(openat, AT_FDCWD, (long)path, flags);
}

/* The bytes of a file, at most `most` of them; negative where it cannot be read. */
static long contents(const char *path, char *to, size_t most)
{
    long file = opened(path, O_RDONLY);
    if (file < 0)
        return file;
    size_t bytes = 0;
    long more;
    while (bytes < most && (more = CALL(read, file, (long)&to[bytes], (long)(most - bytes))) > 0)
        bytes += (size_t)more;
    CALL(close, file);
    return (long)bytes;
}

static void show_system(void)
{
    struct new_utsname names;
    CALL(uname, (long)&names);
    say("first process: ");
    say(names.sysname);
    say(" ");
    say(names.release);
    say(" ");
    say(names.machine);
    say("\n");
}

/* Processes */

struct entry {
    uint64_t inode;
    int64_t next;
    uint16_t size;
    uint8_t type;
    char name[];
};

/* A line of a process: its number, name, state and parent, as /proc/NUMBER/stat begins. */
static void show_process(const char *number)
{
    char path[32] = "/proc/", line[256];
    size_t at = length(path);
    while (*number != '\0' && at < sizeof path - 6)
        path[at++] = *number++;
    for (const char *rest = "/stat"; *rest != '\0'; rest++)
        path[at++] = *rest;
    path[at] = '\0';
    long bytes = contents(path, line, sizeof line - 1);
    if (bytes < 0)
        return;
    long end = 0;
    while (end < bytes && line[end] != ')')
        end++;
    for (int spaces = 0; end < bytes && spaces < 3; end++)
        spaces += line[end + 1] == ' ';
    line[end < bytes ? end : bytes] = '\0';
    say("  ");
    say(line);
    say("\n");
}

static void show_all_processes(void)
{
    static char entries[4096] __attribute__((aligned(8)));
    long folder = opened("/proc", O_RDONLY | O_DIRECTORY), bytes;
    while ((bytes = CALL(getdents64, folder, (long)entries, sizeof entries)) > 0) {
        for (long at = 0; at < bytes;) {
            const struct entry *each = (const struct entry *)&entries[at];
            if (each->name[0] >= '1' && each->name[0] <= '9')
                show_process(each->name);
            at += each->size;
        }
    }
    CALL(close, folder);
}

/* A child waits until nobody can write to the pipe, and ends with its number as its status. */
static void be_child(long number, const int *ends)
{
    char byte;
    CALL(close, ends[1]);
    CALL(read, ends[0], (long)&byte, 1);
    CALL(exit, number);
}

static void show_processes(void)
{
    int ends[2], status;
    CALL(pipe2, (long)ends, 0);
    for (long number = 1; number <= CHILDREN; number++) {
        if (CALL(clone, SIGCHLD) == 0)
            be_child(number, ends);
    }
    say("processes:\n");
    show_all_processes();
    CALL(close, ends[0]);
    CALL(close, ends[1]);
    for (int each = 0; each < CHILDREN; each++) {
        long child = CALL(wait4, -1, (long)&status);
        say("process ");
        say_number(child);
        say(" ended with status ");
        say_number(status >> 8 & 0xFF);
        say("\n");
    }
}

/* A timer */

static long milliseconds(void)
{
    struct timespec now;
    CALL(clock_gettime, CLOCK_MONOTONIC, (long)&now);
    return now.tv_sec * 1000 + now.tv_nsec / 1000000;
}

static void show_timer(void)
{
    uint64_t alarm = 1UL << (SIGALRM - 1);
    struct itimerval every = {{0, TICK_MICROSECONDS}, {0, TICK_MICROSECONDS}}, never = {{0, 0}, {0, 0}};
    CALL(rt_sigprocmask, SIG_BLOCK, (long)&alarm, 0, sizeof alarm);
    long start = milliseconds();
    CALL(setitimer, ITIMER_REAL, (long)&every);
    for (int tick = 0; tick < TICKS; tick++)
        CALL(rt_sigtimedwait, (long)&alarm, 0, 0, sizeof alarm);
    CALL(setitimer, ITIMER_REAL, (long)&never);
    say("timer: ");
    say_number(TICKS);
    say(" signals in ");
    say_number(milliseconds() - start);
    say(" ms\n");
}

/* Typed input */

static void show_typed(void)
{
    char line[80];
    say("type a line: ");
    long bytes = CALL(read, 0, (long)line, sizeof line - 1);
    line[bytes < 0 ? 0 : bytes] = '\0';
    say("typed: ");
    say(line);
}

/* A virtual machine */

struct machine {
    long kvm, vm, vcpu;
    struct kvm_run *run;
};

/* The first call of KVM that fails ends it: `error` has its answer. */
static const char *create(struct machine *machine, const char *path, long *error)
{
    if ((*error = machine->kvm = opened("/dev/kvm", O_RDWR)) < 0)
        return "/dev/kvm";
    if ((*error = machine->vm = CALL(ioctl, machine->kvm, KVM_CREATE_VM)) < 0)
        return "KVM_CREATE_VM";
    char *memory = (char *)CALL(mmap, 0, GUEST_BYTES, PROT_READ | PROT_WRITE, MAP_PRIVATE | MAP_ANONYMOUS, -1);
    if ((*error = contents(path, memory, GUEST_BYTES)) < 0)
        return path;
    struct kvm_userspace_memory_region region = {
        .guest_phys_addr = GUEST_RAM, .memory_size = GUEST_BYTES, .userspace_addr = (uint64_t)memory};
    if ((*error = CALL(ioctl, machine->vm, KVM_SET_USER_MEMORY_REGION, (long)&region)) < 0)
        return "KVM_SET_USER_MEMORY_REGION";
    if ((*error = machine->vcpu = CALL(ioctl, machine->vm, KVM_CREATE_VCPU)) < 0)
        return "KVM_CREATE_VCPU";
    uint64_t start = GUEST_RAM;
    struct kvm_one_reg pc = {
        .id = KVM_REG_RISCV | KVM_REG_SIZE_U64 | KVM_REG_RISCV_CORE | KVM_REG_RISCV_CORE_REG(regs.pc),
        .addr = (uint64_t)&start};
    if ((*error = CALL(ioctl, machine->vcpu, KVM_SET_ONE_REG, (long)&pc)) < 0)
        return "KVM_SET_ONE_REG";
    long size = CALL(ioctl, machine->kvm, KVM_GET_VCPU_MMAP_SIZE);
    machine->run = (struct kvm_run *)CALL(mmap, 0, size, PROT_READ | PROT_WRITE, MAP_SHARED, machine->vcpu);
    return NULL;
}

/* Makes the call of the SBI that the guest's guest has made. */
static bool answer(struct kvm_run *run)
{
    char byte = (char)run->riscv_sbi.args[0];
    switch (run->riscv_sbi.extension_id) {
    case PUT:
        CALL(write, 1, (long)&byte, 1);
        run->riscv_sbi.ret[0] = 0;
        return true;
    case GET:
        run->riscv_sbi.ret[0] = -1UL;
        return true;
    default:
        return false;
    }
}

static void run_machine(const char *path)
{
    struct machine machine;
    long error, calls = 0;
    const char *failed = create(&machine, path, &error);
    if (failed != NULL) {
        say_error(failed, error);
        return;
    }
    say("virtual machine ");
    say(path);
    say(": ");
    while ((error = CALL(ioctl, machine.vcpu, KVM_RUN)) == 0 && machine.run->exit_reason == KVM_EXIT_RISCV_SBI) {
        calls++;
        if (!answer(machine.run))
            break;
    }
    say("\n");
    if (error < 0 || machine.run->exit_reason != KVM_EXIT_SYSTEM_EVENT)
        say_error("not stopped: KVM_RUN", error);
    else
        say("stopped after calls: ");
    say_number(calls);
    say("\n");
}

void first_process(void)
{
    CALL(mount, (long)"proc", (long)"/proc", (long)"proc");
    show_system();
    show_processes();
    show_timer();
    show_typed();
    run_machine("/c.bin");
    run_machine("/ticks.bin");
    CALL(reboot, LINUX_REBOOT_MAGIC1, LINUX_REBOOT_MAGIC2, LINUX_REBOOT_CMD_POWER_OFF);
    for (;;)
        ;
}
