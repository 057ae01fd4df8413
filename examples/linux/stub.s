# What firmware hands to Linux: the number of the hart in a0 and the device tree in a1. The kernel lies one block
# behind. examples/linux/make has made tree.dtb of tree.dts.
    .globl  _start
    .equ KERNEL, 0x80200000
_start:
    csrwi   scounteren, 2       # processes may read the clock
    li      a0, 0
    la      a1, tree
    li      t0, KERNEL
    jr      t0
    .balign 8
tree:
    .incbin "tree.dtb"
