# The way into a mode with all registers, and back with all of them: through a block of 32 doublewords to
# which one register points. It is one that the case's instruction does not name. The first doubleword keeps
# sp.
    .option norelax
    .equ    SAVED, 13 * 8
    .text
    .irp    base, gp, tp, t3, t4
    .globl  enter_\base, left_\base
    .balign 4
enter_\base:                    # a0: the block
    addi    sp, sp, -SAVED
    sd      ra, 0(sp)
    .irp    number, 0, 1, 2, 3, 4, 5, 6, 7, 8, 9, 10, 11
    sd      s\number, 8 + 8 * \number(sp)
    .endr
    sd      sp, 0(a0)
    mv      \base, a0
    .irp    number, 1,2,3,4,5,6,7,8,9,10,11,12,13,14,15,16,17,18,19,20,21,22,23,24,25,26,27,28,29,30,31
    ld      x\number, 8 * \number(\base)
    .endr
    sret

    .balign 4
left_\base:                     # traps into HS
    .irp    number, 1,2,3,4,5,6,7,8,9,10,11,12,13,14,15,16,17,18,19,20,21,22,23,24,25,26,27,28,29,30,31
    sd      x\number, 8 * \number(\base)
    .endr
    ld      sp, 0(\base)
    ld      ra, 0(sp)
    .irp    number, 0, 1, 2, 3, 4, 5, 6, 7, 8, 9, 10, 11
    ld      s\number, 8 + 8 * \number(sp)
    .endr
    addi    sp, sp, SAVED
    ret
    .endr
