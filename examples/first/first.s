# Puts `A` on the console and stops.
    .globl _start
_start:
    li      a7, 1               # call 1 puts the byte in a0 on the console
    li      a0, 'A'
    ecall
    li      a7, 8               # call 8 stops the guest
    ecall
