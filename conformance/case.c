#include "case.h"

extern u64 parameters[5];
enum { SEED, FIRST, COUNT, BLOCK, MODES };

const char *const mode_names[4] = { "HS", "U", "VS", "VU" };
struct hart hart;
u64 handler = (u64)trap;
static u64 state, sums[2];
static bool has_lines;

static void put(char byte)
{
    register long a0 __asm__("a0") = byte;
    register long a7 __asm__("a7") = 1;
    __asm__ volatile("ecall" : "+r"(a0) : "r"(a7) : "a1", "memory");
}

static void put_text(const char *text)
{
    while (*text != '\0')
        put(*text++);
}

static void put_hex(u64 number)
{
    int shift = 60;
    while (shift > 0 && number >> shift == 0)
        shift -= 4;
    for (; shift >= 0; shift -= 4)
        put("0123456789ABCDEF"[number >> shift & 15]);
}

static void put_decimal(u64 number)
{
    if (number >= 10)
        put_decimal(number / 10);
    put((char)('0' + number % 10));
}

/* gcc calls it to clear a structure. */
void *memset(void *bytes, int byte, u64 count)
{
    for (u64 done = 0; done < count; done++)
        ((char *)bytes)[done] = (char)byte;
    return bytes;
}

static u64 mixed(u64 number)
{
    number = (number ^ number >> 30) * 0xBF58476D1CE4E5B9;
    number = (number ^ number >> 27) * 0x94D049BB133111EB;
    return number ^ number >> 31;
}

u64 any(void)
{
    state += 0x9E3779B97F4A7C15;
    return mixed(state);
}

u64 below(u64 bound) { return (any() >> 32) * bound >> 32; }

bool may_have(u64 mode) { return parameters[MODES] >> mode & 1; }

void told(const char *words)
{
    if (has_lines) {
        put(' ');
        put_text(words);
    }
}

void told_number(const char *words, u64 number)
{
    if (has_lines) {
        told(words);
        put(' ');
        put_hex(number);
    }
}

void got_or_chosen(bool is_chosen, const char *name, u64 value)
{
    sums[is_chosen] = mixed(sums[is_chosen] + value);
    if (has_lines) {
        put_text(is_chosen ? " ~" : " ");
        put_text(name);
        put('=');
        put_hex(value);
    }
}

void got(const char *name, u64 value) { got_or_chosen(false, name, value); }
void chosen(const char *name, u64 value) { got_or_chosen(true, name, value); }

u32 *stub_of(enum mode mode)
{
    return mode == HS ? stub_hypervisor : mode == VS ? stub_supervisor : stub_user;
}

void put_words(u32 *place, const u32 *words, u64 count)
{
    bool is_there = true;
    for (u64 at = 0; at < count; at++)
        is_there &= place[at] == words[at];
    if (is_there)
        return;
    for (u64 at = 0; at < count; at++)
        place[at] = words[at];
    __asm__ volatile("fence.i" : : : "memory");
}

/* Goes into the mode at this place, and keeps what it comes to. */
static void make_at(u32 *place, enum mode mode, u64 status, u64 hypervisor)
{
    write_csr(STVEC, handler);
    write_csr(SEPC, place);
    write_csr(HSTATUS, hypervisor | (mode >= VS ? HSTATUS_SPV : 0));
    write_csr(SSTATUS, status | (mode == HS || mode == VS ? SSTATUS_SPP : 0));
    hart.pc = (u64)place;
    enter();
    bool trapped = hart.trapped != 0;
    hart.cause = trapped ? read_csr(SCAUSE) : NO_TRAP;
    hart.tval = trapped ? read_csr(STVAL) : 0;
    hart.epc = trapped ? read_csr(SEPC) : 0;
    hart.htval = trapped ? read_csr(HTVAL) : 0;
    hart.htinst = trapped ? read_csr(HTINST) : 0;
    hart.hstatus = read_csr(HSTATUS);
    hart.sstatus = read_csr(SSTATUS);
}

void make(enum mode mode, u32 word, u64 status, u64 hypervisor)
{
    u32 *stub = stub_of(mode);
    put_words(stub, &word, 1);
    make_at(stub, mode, status, hypervisor);
}

void make_all(enum mode mode, const u32 *words, u64 count, u64 status, u64 hypervisor)
{
    u32 *stub = stub_of(mode) + LONG / sizeof(u32), end = mode == HS ? JUMP_BACK : ECALL;
    put_words(stub, words, count);
    put_words(stub + count, &end, 1);
    make_at(stub, mode, status, hypervisor);
}

u64 place(u64 address)
{
    return address - (u64)stub_supervisor < 3 * 4096 ? address & 4095 : address;
}

u64 plain_htinst(u32 word)
{
    return hart.htinst == (word & ~0xF8000u) ? 0 : hart.htinst;
}

void fence_all(void)
{
    __asm__ volatile(".word 0x12000073\n .word 0x22000073\n .word 0x62000073" : : : "memory");
}

/* A line of numbers and sums for each block of cases. */
static void run_sums(u64 first, u64 count, u64 block)
{
    for (u64 done = 0; done < count; done++) {
        state = mixed(parameters[SEED] * 0x9E3779B97F4A7C15 ^ mixed(first + done));
        one_case(first + done);
        if ((done + 1) % block != 0 && done + 1 != count)
            continue;
        put_decimal(first + done - done % block);
        put(' ');
        put_decimal(first + done);
        put(' ');
        put_hex(sums[0]);
        put(' ');
        put_hex(sums[1]);
        put('\n');
        sums[0] = sums[1] = 0;
    }
}

static void run_lines(u64 first, u64 count)
{
    has_lines = true;
    for (u64 done = 0; done < count; done++) {
        state = mixed(parameters[SEED] * 0x9E3779B97F4A7C15 ^ mixed(first + done));
        put_decimal(first + done);
        one_case(first + done);
        put('\n');
    }
}

int main(void)
{
    prepare();
    if (parameters[BLOCK] != 0)
        run_sums(parameters[FIRST], parameters[COUNT], parameters[BLOCK]);
    else
        run_lines(parameters[FIRST], parameters[COUNT]);
    return 0;
}
