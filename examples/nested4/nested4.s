# The end of step 4 of docs/guest-hypervisor.md, which explains it.
    .option norelax             # the linker changes no instruction, so .org is where it says
    .globl  _start
    .macro  registers op        # all but x0, which is zero, and x2, which is sp
    .irp    i, 1,3,4,5,6,7,8,9,10,11,12,13,14,15,16,17,18,19,20,21,22,23,24,25,26,27,28,29,30,31
    \op     x\i, 8 * \i(sp)
    .endr
    .endm
_start:
    la      t0, traps
    csrw    stvec, t0
    ld      t0, table
    csrw    hgatp, t0
    li      t0, 0x80
    csrs    hstatus, t0         # SPV
    li      t0, 0x100
    csrs    sstatus, t0         # SPP
    la      sp, one
    j       run

traps:
    csrrw   sp, sscratch, sp    # sp: the kernel's structure. sscratch: the kernel's sp
    registers sd
    csrr    t0, sscratch
    sd      t0, 8 * 2(sp)
    csrr    t0, sepc
    sd      t0, 0(sp)
    csrr    t0, scause
    li      t1, 10
    bne     t0, t1, fault
    addi    t0, a7, -3
    beqz    t0, move
    addi    t0, a7, -4
    beqz    t0, fence
    ecall
    sd      a0, 8 * 10(sp)
    j       next
move:                           # call 3: page 1 goes to the frame at 0x80010000
    ld      t0, moved
    la      t1, level0
    sd      t0, 8(t1)
    j       next
fence:                          # call 4
    li      t0, 0x1000 >> 2     # a guest physical address, shifted right by 2, as htval is
    li      t1, 1               # the VMID
    .insn   r 0x73, 0, 0x31, zero, t0, t1       # hfence.gvma t0, t1
next:
    ld      t0, 0(sp)
    addi    t0, t0, 4
    sd      t0, 0(sp)
run:                            # goes on with the kernel at sp
    csrw    sscratch, sp
    ld      t0, 0(sp)
    csrw    sepc, t0
    registers ld
    ld      sp, 8 * 2(sp)
    sret                        # the trap has set SPV and SPP
fault:
    li      t1, 20
    bltu    t0, t1, other       # this kernel raises no 22, a virtual instruction
    csrr    t0, htval
    srli    t1, t0, 10          # the page p
    slli    t2, t1, 10
    ld      t3, leaf
    add     t2, t2, t3          # its leaf: the frame at 0x8000A000 + 4096 p
    slli    t1, t1, 3
    la      t3, level0
    add     t1, t1, t3
    sd      t2, 0(t1)
    .insn   r 0x73, 0, 0x31, zero, t0, zero     # hfence.gvma t0, zero
    j       run                 # to the same instruction
    .balign 8
leaf:
    .dword  0x8000A000 >> 2 | 0xD7      # V, R, W, U, A, D
moved:
    .dword  0x80010000 >> 2 | 0xD7
other:
    li      a0, '!'
    li      a7, 1
    ecall
    li      a7, 8
    ecall

    .balign 8
one:                            # of the kernel: sepc at 0, register i at 8 * i
    .zero   8 * 32
table:
    .dword  8 << 60 | 1 << 44 | 0x80004000 >> 12
    .org    0x1000              # the kernel
    li      t0, 'a'
    li      t1, 'e'
    li      a7, 1
again:
    mv      a0, t0
    ecall
    addi    t0, t0, 1
    bne     t0, t1, again
    li      a7, 8
    ecall
    .org    0x4000              # the root table
    .dword  0x80008000 >> 2 | 0x01
    .org    0x8000              # level 1
    .dword  0x80009000 >> 2 | 0x01
    .org    0x9000
level0:                         # page 0 is the kernel's code: V, R, X, U, A
    .dword  0x80001000 >> 2 | 0x5B
    .org    0x10008
    .byte   'N'
