# The environment of an image on a machine that starts in M: calls 1 and 8, by a UART or by HTIF, and call 0, of
# which 0 makes the timer of S pending, and another moment not. conformance/run fills in the first doublewords.
    .option norelax
    .equ    UART, 0x10000000
    .equ    FINISH, 0x100000
    .globl  _start
_start:
    j       start
    .balign 8
ram_end:                        # the end of RAM, where S has memory
    .dword  0
has_htif:
    .dword  0
    .balign 64
tohost:                         # at 64
    .dword  0
    .balign 64
fromhost:                       # at 128
    .dword  0
saved:
    .zero   8 * 4

start:
    la      t0, unmapped        # a machine without PMP traps here, and goes on
    csrw    mtvec, t0
    li      t0, 0x80000000 >> 2
    csrw    pmpaddr0, t0
    ld      t0, ram_end
    srli    t0, t0, 2
    csrw    pmpaddr1, t0
    li      t0, 0x0F00
    csrw    pmpcfg0, t0
    .balign 4
unmapped:
    la      t0, trap
    csrw    mtvec, t0
    la      t0, saved
    csrw    mscratch, t0
    li      t0, 0xF0B5FF        # each exception but a call of HS
    csrw    medeleg, t0
    li      t0, 0x222
    csrw    mideleg, t0
    li      t0, 2
    csrw    mcounteren, t0
    csrw    mie, zero
    li      t0, 0x1800
    csrc    mstatus, t0
    li      t0, 0x800           # to HS
    csrs    mstatus, t0
    li      t0, 1
    slli    t0, t0, 31
    ld      t0, 8(t0)           # where the image says that it starts
    csrw    mepc, t0
    mret

    .balign 4
trap:
    csrrw   s0, mscratch, s0
    sd      t0, 0(s0)
    sd      t1, 8(s0)
    sd      t2, 16(s0)
    csrr    t0, mcause
    addi    t0, t0, -9
    bnez    t0, stop            # no call of HS: it ends
    csrr    t0, mepc
    addi    t0, t0, 4
    csrw    mepc, t0
    addi    t0, a7, -8
    beqz    t0, stop
    beqz    a7, timer
    ld      t0, has_htif
    bnez    t0, put_by_htif
    li      t1, UART
    sb      a0, 0(t1)
    j       answer
put_by_htif:
    li      t0, 0x0101          # device 1, command 1
    slli    t0, t0, 48
    andi    t1, a0, 0xFF
    or      t0, t0, t1
    la      t1, tohost
    sd      t0, 0(t1)
1:  ld      t0, 0(t1)
    bnez    t0, 1b
    la      t1, fromhost
    sd      zero, 0(t1)
    j       answer
timer:
    li      t0, 0x20            # STIP
    csrc    mip, t0
    bnez    a0, answer
    csrs    mip, t0
answer:
    li      a0, 0
    ld      t0, 0(s0)
    ld      t1, 8(s0)
    ld      t2, 16(s0)
    csrrw   s0, mscratch, s0
    mret
stop:
    ld      t0, has_htif
    beqz    t0, finish
    li      t0, 1
    la      t1, tohost
    sd      t0, 0(t1)
1:  j       1b
finish:
    li      t0, FINISH
    li      t1, 0x5555
    sw      t1, 0(t0)
1:  j       1b
