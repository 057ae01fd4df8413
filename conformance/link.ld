/* Lays an image out in RAM, which begins at 0x80000000: the parameters and the code, constants, variables,
   tables and a stack, all in the first 2 MiB. What the cases access lies in the second 2 MiB. */
ENTRY(_start)

SECTIONS
{
    . = 0x80000000;
    .text : { *(.text.start) *(.text .text.*) }
    .rodata : { *(.rodata .rodata.* .srodata .srodata.*) }
    . = ALIGN(0x1000);
    .stubs : { *(.stubs) }
    .data : { *(.data .data.* .sdata .sdata.*) }
    .bss : { *(.bss .bss.* .sbss .sbss.* COMMON) }
    . = ALIGN(16) + 0x8000;
    stack_top = .;
    ASSERT(. <= 0x80200000, "an image has at most 2 MiB")
    /DISCARD/ : { *(.comment) *(.note .note.*) *(.riscv.attributes) *(.eh_frame) }
}
