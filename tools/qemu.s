# The environment of a guest under QEMU's `virt` machine, for tools/qemu-run: calls 0, 1, 2 and 8, the timer and the
# inputs, in M. tools/qemu-run fills in the first doublewords, and puts the inputs after them.
    .option norelax
    .equ    UART, 0x10000000
    .equ    FINISH, 0x100000
    .equ    MTIMECMP, 0x2004000
    .equ    MTIME, 0x200BFF8
    .globl  _start
_start:
    j       start
    .balign 8
ram_end:
    .dword  0
console:                        # how many more bytes it takes
    .dword  0
inputs:                         # how many are unread
    .dword  0
timer:
    .dword  -1
next:                           # the place of the first unread input
    .dword  input
saved:
    .zero   8 * 4

start:
    la      t0, trap
    csrw    mtvec, t0
    la      t0, saved
    csrw    mscratch, t0
    li      t0, 0x80000000 >> 2 # no other memory for the guest than its RAM
    csrw    pmpaddr0, t0
    ld      t0, ram_end
    srli    t0, t0, 2
    csrw    pmpaddr1, t0
    li      t0, 0x0F00
    csrw    pmpcfg0, t0
    li      t0, 0xF0B5FF        # each exception but a call of HS
    csrw    medeleg, t0
    li      t0, 0x222
    csrw    mideleg, t0
    li      t0, 2
    csrw    mcounteren, t0
    li      t0, 0x1800
    csrc    mstatus, t0
    li      t0, 0x800           # to HS
    csrs    mstatus, t0
    li      t0, 1
    slli    t0, t0, 31
    csrw    mepc, t0
    li      t0, 0x80            # MTIE
    csrs    mie, t0
    jal     t0, events
    li      t0, 0
    li      t1, 0
    li      t2, 0
    li      t3, 0
    mret

    .balign 4
trap:
    csrrw   s0, mscratch, s0
    sd      t0, 0(s0)
    sd      t1, 8(s0)
    sd      t2, 16(s0)
    sd      t3, 24(s0)
    csrr    t0, mcause
    bltz    t0, back            # the timer of M
    csrr    t0, mepc
    addi    t0, t0, 4
    csrw    mepc, t0
    beqz    a7, set_timer
    addi    t0, a7, -1
    beqz    t0, put
    addi    t0, a7, -2
    beqz    t0, get
    addi    t0, a7, -8
    beqz    t0, stop
    li      a0, -2
    li      a1, 0
back:
    jal     t0, events
    ld      t0, 0(s0)
    ld      t1, 8(s0)
    ld      t2, 16(s0)
    ld      t3, 24(s0)
    csrrw   s0, mscratch, s0
    mret

set_timer:
    la      t0, timer
    sd      a0, 0(t0)
    li      a0, 0
    j       back
put:
    ld      t0, console
    addi    t0, t0, -1
    bltz    t0, full
    la      t1, console
    sd      t0, 0(t1)
    li      t1, UART
    sb      a0, 0(t1)
    li      a0, 0
    j       back
full:
    li      a0, -1
    j       back
get:
    li      a0, -1
    ld      t0, inputs
    beqz    t0, back
    ld      t1, next
    ld      t2, 0(t1)
    li      t3, MTIME
    ld      t3, 0(t3)
    bltu    t3, t2, back
    lbu     a0, 8(t1)
    addi    t1, t1, 16
    la      t2, next
    sd      t1, 0(t2)
    addi    t0, t0, -1
    la      t2, inputs
    sd      t0, 0(t2)
    j       back
stop:
    li      t0, FINISH
    li      t1, 0x5555
    sw      t1, 0(t0)
1:  j       1b

events:                         # sets the pending bits of sip and the next interrupt of M; goes back to t0
    li      t1, MTIME
    ld      t1, 0(t1)
    li      t3, -1              # the next moment
    ld      t2, timer
    bltu    t1, t2, timer_ahead
    li      t2, 0x20            # STIP
    csrs    mip, t2
    j       next_input
timer_ahead:
    mv      t3, t2
    li      t2, 0x20
    csrc    mip, t2
next_input:
    li      t2, 0x200           # SEIP
    csrc    mip, t2
    ld      t2, inputs
    beqz    t2, set
    ld      t2, next
    ld      t2, 0(t2)
    bltu    t1, t2, input_ahead
    li      t2, 0x200
    csrs    mip, t2
    j       set
input_ahead:
    bgeu    t2, t3, set
    mv      t3, t2
set:
    li      t1, MTIMECMP
    sd      t3, 0(t1)
    jr      t0

    .balign 8
input:                          # each a moment and a byte, a doubleword for each
