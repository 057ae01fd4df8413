/* Lays the guest out in RAM, from 0x80000000 on or from `origin`: the first instruction of start.s, the other code and
   constants; from the next page on, variables and a stack of 64 KiB. RAM behind the image is zero, and so is .bss,
   which is not in the image. */
ENTRY(_start)

SECTIONS
{
    . = DEFINED(origin) ? origin : 0x80000000;
    .text : { *(.text.start) *(.text .text.*) }
    .rodata : { *(.rodata .rodata.* .srodata .srodata.*) }
    . = ALIGN(0x1000);
    .data : { *(.data .data.* .sdata .sdata.*) }
    .bss : { *(.bss .bss.* .sbss .sbss.* COMMON) }
    . = ALIGN(16) + 0x10000;
    stack_top = .;
    /DISCARD/ : { *(.comment) *(.note .note.*) *(.riscv.attributes) *(.eh_frame) }
}
