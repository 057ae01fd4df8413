# Step 2 of docs/guest-hypervisor.md under Sv48x4: a table more, on level 2, and 9 for the MODE of hgatp.
    .option norelax             # the linker changes no instruction, so .org is where it says
    .globl  _start
_start:
    la      t0, traps
    csrw    stvec, t0
    ld      t0, table
    csrw    hgatp, t0
    li      t0, 0x80
    csrs    hstatus, t0         # SPV
    li      t0, 0x100
    csrs    sstatus, t0         # SPP
    csrw    sepc, zero
    sret                        # to the kernel, at its address 0

traps:                          # t0 to t6 are the hypervisor's: this kernel does without them
    csrr    t0, scause
    li      t1, 10
    bne     t0, t1, fault
    ecall                       # a call of VS: the environment makes it
next:
    csrr    t0, sepc
    addi    t0, t0, 4
    csrw    sepc, t0
    sret                        # the trap has set SPV and SPP
fault:
    li      t1, 20
    bltu    t0, t1, other       # this kernel raises no 22, a virtual instruction
    csrr    t0, htval
    srli    t1, t0, 10          # the page p
    slli    t2, t1, 10
    ld      t3, leaf
    add     t2, t2, t3          # its leaf: the frame at 0x8000A000 + 4096 p
    slli    t1, t1, 3
    la      t3, level0
    add     t1, t1, t3
    sd      t2, 0(t1)
    .insn   r 0x73, 0, 0x31, zero, t0, zero     # hfence.gvma t0, zero
    sret                        # to the same instruction
    .balign 8
leaf:
    .dword  0x8000A000 >> 2 | 0xD7      # V, R, W, U, A, D
other:
    li      a0, '!'
    li      a7, 1
    ecall
    li      a7, 8
    ecall

    .balign 8
table:
    .dword  9 << 60 | 1 << 44 | 0x80004000 >> 12
    .org    0x1000              # the kernel
    li      s0, 0x1000
    li      a0, 'M'
    sb      a0, 8(s0)
    lbu     a0, 8(s0)
    li      a7, 1
    ecall
    li      a7, 8
    ecall
    .org    0x3000              # level 2
    .dword  0x80008000 >> 2 | 0x01
    .org    0x4000              # the root table
    .dword  0x80003000 >> 2 | 0x01
    .org    0x8000              # level 1
    .dword  0x80009000 >> 2 | 0x01
    .org    0x9000
level0:                         # page 0 is the kernel's code: V, R, X, U, A
    .dword  0x80001000 >> 2 | 0x5B
