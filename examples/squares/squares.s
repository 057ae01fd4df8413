# Prints the squares of 0 to 9, each on a line, and stops.
# Each number is divided by ten until nothing is left; its digits are stored below sp, the last one first.
    .option norvc
    .globl _start
_start:
    auipc   sp, 0x100           # a mebibyte above the first instruction
    li      s0, 0
square:
    mul     a1, s0, s0
    mv      t0, sp
    li      t1, 10
digit:
    remu    t2, a1, t1
    divu    a1, a1, t1
    addi    t2, t2, 48
    addi    t0, t0, -1
    sb      t2, 0(t0)
    bnez    a1, digit
print:
    lbu     a0, 0(t0)
    li      a7, 1               # call 1 puts the byte in a0
    ecall
    addi    t0, t0, 1
    bltu    t0, sp, print
    li      a0, 10
    ecall
    addi    s0, s0, 1
    blt     s0, t1, square
    li      a7, 8               # call 8 stops the guest
    ecall
