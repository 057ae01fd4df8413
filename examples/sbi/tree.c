/* The device tree in its flattened form (Devicetree Specification, version 17): one hart, its clock, its RAM,
   and the text that the kernel gets as its arguments. */
#include "machine.h"

#define MAGIC 0xD00DFEED
#define VERSION 17
#define COMPATIBLE_WITH 16
#define STRUCTURE_AT 56 /* behind the header of 40 bytes and the end of a list of reserved memory */
#define STRINGS_AT 1400
#define ARGUMENTS_MOST 500
#define TICKS_PER_SECOND 10000000

enum { BEGIN_NODE = 1, END_NODE = 2, PROPERTY = 3, END = 9 };

static uint8_t *tree;
static uint32_t at;      /* behind the structure so far */
static uint32_t strings; /* behind the names of properties so far */

static uint32_t length(const char *text)
{
    uint32_t bytes = 0;
    while (text[bytes] != '\0')
        bytes++;
    return bytes;
}

/* Numbers of a tree have the highest byte first. */
static void put_word(uint32_t place, uint32_t word)
{
    for (int byte = 0; byte < 4; byte++)
        tree[place + (uint32_t)byte] = (uint8_t)(word >> (24 - 8 * byte));
}

static void add_word(uint32_t word)
{
    put_word(at, word);
    at += 4;
}

static void add_text(const char *text)
{
    for (uint32_t byte = 0; byte <= length(text); byte++)
        tree[at + byte] = (uint8_t)text[byte];
    at = (at + length(text) + 4) & ~3U;
}

static void add_property(const char *name, uint32_t bytes)
{
    add_word(PROPERTY);
    add_word(bytes);
    add_word(strings - STRINGS_AT);
    for (uint32_t byte = 0; byte <= length(name); byte++)
        tree[strings++] = (uint8_t)name[byte];
}

static void add_node(const char *name)
{
    add_word(BEGIN_NODE);
    add_text(name);
}

static void end_node(void)
{
    add_word(END_NODE);
}

static void text(const char *name, const char *value)
{
    add_property(name, length(value) + 1);
    add_text(value);
}

static void number(const char *name, uint32_t value)
{
    add_property(name, 4);
    add_word(value);
}

static void add_hart(void)
{
    add_node("cpus");
    number("#address-cells", 1);
    number("#size-cells", 0);
    number("timebase-frequency", TICKS_PER_SECOND);
    add_node("cpu@0");
    text("device_type", "cpu");
    text("compatible", "riscv");
    text("status", "okay");
    text("riscv,isa", "rv64ima");
    text("mmu-type", "riscv,sv48");
    number("reg", 0);
    add_node("interrupt-controller");
    text("compatible", "riscv,cpu-intc");
    number("#interrupt-cells", 1);
    add_property("interrupt-controller", 0);
    end_node();
    end_node();
    end_node();
}

static void add_memory(void)
{
    add_node("memory@80200000");
    text("device_type", "memory");
    add_property("reg", 16);
    add_word(0);
    add_word(GUEST_RAM);
    add_word(0);
    add_word((uint32_t)(guest_end - GUEST_RAM));
    end_node();
}

/* Writes the tree at a place, where RAM is zero. */
void write_tree(uint64_t place)
{
    tree = (uint8_t *)place;
    at = STRUCTURE_AT;
    strings = STRINGS_AT;
    add_node("");
    number("#address-cells", 2);
    number("#size-cells", 2);
    text("compatible", "nesthv,sbi");
    text("model", "nesthv");
    add_node("chosen");
    text("bootargs", length(ARGUMENTS) <= ARGUMENTS_MOST ? ARGUMENTS : "");
    end_node();
    add_hart();
    add_memory();
    end_node();
    add_word(END);
    uint32_t header[] = {MAGIC, strings, STRUCTURE_AT, STRINGS_AT, 40, VERSION, COMPATIBLE_WITH, 0,
                         strings - STRINGS_AT, at - STRUCTURE_AT};
    for (uint32_t word = 0; word < sizeof header / sizeof *header; word++)
        put_word(4 * word, header[word]);
}
