# The beginning of each image here. It calls `checksum` with the count of rounds in a0, puts what that answers on the
# console as 16 hexadecimal digits, and stops the guest. bench/compare.sh writes the count at offset 8.
    .section .text.start
    .globl  _start
_start:
    j       start
    .balign 8
rounds:
    .dword  1
start:
    la      t0, stop            # a trap that nobody expects stops the guest too, and then there are no digits
    csrw    stvec, t0
    la      sp, stack_top
    ld      a0, rounds
    call    checksum
    mv      s0, a0
    li      s1, 64
    li      s2, 10
    li      a7, 1               # call 1 puts the byte in a0 on the console
digit:
    addi    s1, s1, -4
    srl     a0, s0, s1
    andi    a0, a0, 15
    bltu    a0, s2, small
    addi    a0, a0, 'A' - '0' - 10
small:
    addi    a0, a0, '0'
    ecall
    bnez    s1, digit
stop:
    li      a7, 8               # call 8 stops the guest
    ecall
