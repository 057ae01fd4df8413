# What runs before main: it sets the trap handler and the stack. Behind main its value is the guest's verdict.
    .section .text.start
    .globl _start
_start:
    la      t0, show_trap       # examples/traps/handler.s
    csrw    stvec, t0
    la      sp, stack_top
    call    main

# exit(n) stops the guest. Where n modulo 256 is not 0, it puts a last line `exit N` before, which
# `nesthv-run --verdict` ends with.
    .globl exit
exit:
    andi    s1, a0, 255
    beqz    s1, .Lstop
    li      a7, 1               # call 1 puts the byte in a0 on the console
    la      s0, .Lwords
.Lletter:
    lbu     a0, 0(s0)
    beqz    a0, .Lnumber
    ecall
    addi    s0, s0, 1
    j       .Lletter
.Lnumber:
    li      s2, 100
    li      s3, 10
.Lfirst:                        # the first digit is not 0
    bgeu    s1, s2, .Ldigit
    divu    s2, s2, s3
    j       .Lfirst
.Ldigit:
    divu    a0, s1, s2
    remu    s1, s1, s2
    addi    a0, a0, '0'
    ecall
    divu    s2, s2, s3
    bnez    s2, .Ldigit
    li      a0, '\n'
    ecall
.Lstop:
    li      a7, 8               # call 8 stops the guest
    ecall
    j       .Lstop              # never made: gdb shows it as the next one, and it is in `exit`
.Lwords:
    .ascii  "\nexit \0\0"
