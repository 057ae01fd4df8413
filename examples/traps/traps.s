# Reads memory where the guest has none. Without the handler this guest would print nothing.
    .globl _start
_start:
    la      t0, show_trap
    csrw    stvec, t0
    li      a0, 0x40000000      # RAM begins at 0x80000000
    ld      a1, 0(a0)
    li      a7, 8               # never reached
    ecall
