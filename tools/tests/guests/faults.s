# A hypervisor in HS with two kernels in VS, as examples/timers has, which also moves a page for a kernel, and fences
# it. Each of five lines has a number: test_doctor.py makes the instruction there another one, which is a fault that
# hypervisors have.
    .option norelax
    .globl  _start

    # What the hypervisor has of a kernel: sepc at 0, register i at 8 * i, and then:
    .equ HGATP, 256
    .equ LEVEL0, 264            # its table of level 0
    .equ LEAF, 272              # the leaf of its page 0, if that had no code
    .equ OTHER, 280             # the other kernel
    .equ ENDED, 288
    .equ VS, 296                # nine registers

    .equ STIE, 1 << 5           # of sie: the hypervisor's own timer
    .equ VSTIP, 1 << 6          # of hvip: the kernel's
    .equ FRAME, 1 << 10         # from an entry of one frame to that of the next

    .macro  registers op        # all but x0, which is zero, and x2, which is sp
    .irp    i, 1,3,4,5,6,7,8,9,10,11,12,13,14,15,16,17,18,19,20,21,22,23,24,25,26,27,28,29,30,31
    \op     x\i, 8 * \i(sp)
    .endr
    .endm
    .macro  exchange name, at   # keeps a register for the kernel at sp, and sets it for the one at t1
    csrr    t0, \name
    sd      t0, \at(sp)
    ld      t0, \at(t1)
    csrw    \name, t0
    .endm

_start:
    la      t0, traps
    csrw    stvec, t0
    li      t0, 1 << 1          # TM: VS may read the time
    csrw    hcounteren, t0      # fault 5: without this line
    li      t0, VSTIP           # VS takes the interrupt of its timer
    csrw    hideleg, t0         # fault 3: without this line
    li      t0, 0x80
    csrs    hstatus, t0         # SPV
    li      t0, 0x100
    csrs    sstatus, t0         # SPP
    la      sp, one

run:                            # goes on with the kernel at sp
    csrw    sscratch, sp
    ld      t0, HGATP(sp)
    csrw    hgatp, t0
    ld      t0, 0(sp)
    csrw    sepc, t0
    registers ld                # fault 4: without that of x13, which is a3
    ld      sp, 8 * 2(sp)
    sret                        # each trap has set SPV and SPP

traps:
    csrrw   sp, sscratch, sp    # sp: the kernel's structure. sscratch: the kernel's sp
    registers sd
    csrr    t0, sscratch
    sd      t0, 8 * 2(sp)
    csrr    t0, sepc
    sd      t0, 0(sp)
    csrr    t0, scause
    bltz    t0, timer
    li      t1, 10
    bne     t0, t1, fault
    ld      t0, 0(sp)           # a call of VS: goes on behind it
    addi    t0, t0, 4
    sd      t0, 0(sp)
    beqz    a7, set
    addi    t0, a7, -2
    beqz    t0, switch
    addi    t0, a7, -3
    beqz    t0, move
    addi    t0, a7, -8
    beqz    t0, end
    ecall                       # the environment makes it
    sd      a0, 8 * 10(sp)      # the answer
    j       run

set:                            # call 0: the kernel's timer comes at a0
    ecall
    li      t0, VSTIP
    csrc    hvip, t0
    li      t0, STIE
    csrs    sie, t0
    j       run
timer:                          # the hypervisor's timer has come: so has the kernel's
    li      t0, STIE
    csrc    sie, t0
    li      t0, VSTIP
    csrs    hvip, t0
    j       run

move:                           # call 3: the page at a0 goes to the next frame
    srli    t1, a0, 12
    slli    t1, t1, 3
    ld      t0, LEVEL0(sp)
    add     t1, t1, t0
    ld      t0, 0(t1)           # its entry
    srli    t2, t0, 10
    slli    t2, t2, 12          # its frame
    ld      t2, 0(t2)
    addi    t2, t2, 1           # one more in the first byte, to tell the frames apart
    addi    t0, t0, FRAME
    sd      t0, 0(t1)
    srli    t0, t0, 10
    slli    t0, t0, 12
    sd      t2, 0(t0)
    srli    t0, a0, 2
    .insn   r 0x73, 0, 0x31, zero, t0, zero     # hfence.gvma t0, zero      fault 1: without this line
    j       run

end:                            # call 8: this kernel ends, and with the last one the guest
    sd      a7, ENDED(sp)
    ld      t1, OTHER(sp)
    ld      t0, ENDED(t1)
    beqz    t0, switch
    ecall
switch:                         # call 2: the other kernel goes on, unless it has ended
    ld      t1, OTHER(sp)
    ld      t0, ENDED(t1)
    bnez    t0, run
    exchange vsstatus, VS
    exchange vstvec, VS + 8
    exchange vsscratch, VS + 16
    exchange vsepc, VS + 24
    exchange vscause, VS + 32
    exchange vstval, VS + 40
    exchange vsatp, VS + 48
    exchange hie, VS + 56       # vsie shows its bits that hideleg has
    exchange hvip, VS + 64
    mv      sp, t1
    j       run                 # no fence: the kernels have two VMIDs

fault:
    li      t1, 20
    bltu    t0, t1, other
    li      t1, 22              # a virtual instruction
    beq     t0, t1, other
    csrr    a2, htval           # a guest physical address, shifted right by 2
    srli    t1, a2, 10          # its page      fault 2: by 12
    slli    a3, t1, 10
    ld      t2, LEAF(sp)
    add     a3, a3, t2
    slli    t1, t1, 3
    ld      t2, LEVEL0(sp)
    add     t1, t1, t2
    sd      a3, 0(t1)
    .insn   r 0x73, 0, 0x31, zero, a2, zero     # hfence.gvma a2, zero
    j       run                 # to the same instruction
other:
    li      a0, '!'
    li      a7, 1
    ecall
    li      a7, 8
    ecall

    .balign 8
one:
    .zero   8 * 10
    .dword  'A'                 # a0
    .zero   HGATP - 8 * 11
    .dword  8 << 60 | 1 << 44 | 0x80004000 >> 12, 0x80009000, 0x80020000 >> 2 | 0xD7, two     # V, R, W, U, A, D
    .zero   VS + 8 * 9 - ENDED
two:
    .zero   8 * 10
    .dword  'a'                 # a0
    .zero   HGATP - 8 * 11
    .dword  8 << 60 | 2 << 44 | 0x8000C000 >> 12, 0x80011000, 0x80030000 >> 2 | 0xD7, one
    .zero   VS + 8 * 9 - ENDED

    .org    0x1000
kernel:                         # each runs this code; a0 is its letter
    la      t0, tick
    csrw    stvec, t0           # which is vstvec
    mv      a3, a0              # its letter stays in a3
    li      s0, 0x8000
    sb      a0, 0(s0)           # to page 8
    li      a7, 1
    ecall                       # the letter
    li      a0, 0x8000
    li      a7, 3
    ecall                       # moves page 8
    lbu     a0, 0(s0)
    li      a7, 1
    ecall                       # the next letter, from the new frame
    li      a7, 2
    ecall                       # the other kernel's turn
    li      t0, STIE
    csrs    sie, t0
    csrr    a0, time
    addi    a0, a0, 500
    li      a7, 0
    ecall                       # the timer
sleep:
    wfi
    csrsi   sstatus, 2          # SIE: the tick comes now
    csrci   sstatus, 2
    beqz    s1, sleep
    mv      a0, a3
    li      a7, 1
    ecall                       # its letter
    li      a7, 8
    ecall

tick:                           # a0 and a7 are its own: the kernel sleeps
    li      a0, -1
    li      a7, 0
    ecall                       # the timer comes no more
    li      s1, 1
    sret

    .org    0x4000              # the first kernel's root table
    .dword  0x80008000 >> 2 | 0x01
    .org    0x8000              # its level 1
    .dword  0x80009000 >> 2 | 0x01
    .org    0x9000              # its level 0; page 0 is the code: V, R, X, U, A
    .dword  0x80001000 >> 2 | 0x5B
    .org    0xC000              # the second kernel's
    .dword  0x80010000 >> 2 | 0x01
    .org    0x10000
    .dword  0x80011000 >> 2 | 0x01
    .org    0x11000
    .dword  0x80001000 >> 2 | 0x5B
