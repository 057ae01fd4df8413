# A hypervisor in HS and a kernel in VS, with no second-stage table: the kernel's physical addresses are the guest's
# own. The kernel has an Sv39 table. Its page faults and its timer interrupt are delegated to it; its other traps go
# to the hypervisor, which forwards its calls, gives it a timer, and puts a letter for each other trap: 'A' plus its
# code.
    .globl _start
    .equ GIGABYTE, 0x200000CF   # a leaf of 1 GiB at 0x80000000: V, R, W, X, A and D
    .equ SPP, 0x100             # of sstatus
    .equ SPV, 0x80              # of hstatus
    .equ LOAD_PAGE_FAULT, 13
    .equ ECALL_FROM_VS, 10
    .equ VSTI, 0x40             # the timer interrupt of VS, code 6, in hideleg, hie and hvip

_start:
    la      t0, traps
    csrw    stvec, t0
    li      t0, 1
    slli    t0, t0, LOAD_PAGE_FAULT
    csrw    hedeleg, t0
    li      t0, VSTI
    csrw    hideleg, t0
    la      sp, saved
    csrw    sscratch, sp
    la      t0, kernel
    csrw    sepc, t0
    li      t0, SPP
    csrs    sstatus, t0
    li      t0, SPV
    csrs    hstatus, t0
    sret                        # to VS, since SPV and SPP are set

    .balign 4
traps:
    csrrw   sp, sscratch, sp
    sd      t0, 0(sp)
    csrr    t0, scause
    addi    t0, t0, -ECALL_FROM_VS
    beqz    t0, call
    sd      a0, 8(sp)
    sd      a7, 16(sp)
    addi    a0, t0, 'A' + ECALL_FROM_VS
    li      a7, 1
    ecall                       # the letter
    ld      a0, 8(sp)
    ld      a7, 16(sp)
    j       skip
call:
    beqz    a7, timer
    ecall                       # each other call is the environment's
    j       skip
timer:                          # at a0: at once, or never if that is negative
    li      t0, VSTI
    csrc    hvip, t0
    bltz    a0, skip
    csrs    hvip, t0
skip:
    csrr    t0, sepc
    addi    t0, t0, 4
    csrw    sepc, t0
    ld      t0, 0(sp)
    csrrw   sp, sscratch, sp
    sret

    .balign 4
kernel:
    la      t0, vectors + 1     # mode 1: interrupt 5 goes to vectors + 20
    csrw    stvec, t0
    li      t0, 0x20001
    slli    t0, t0, 14          # the table's root, at 0x80004000
    li      t1, GIGABYTE
    sd      t1, 16(t0)
    srli    t0, t0, 12
    li      t1, 8
    slli    t1, t1, 60
    or      t0, t0, t1
    csrw    satp, t0
    sfence.vma
    li      a7, 1
    li      a0, 'K'
    ecall                       # 'K', by the hypervisor
    lw      t0, 0(zero)         # a page fault, which the kernel takes: 'P'
    csrr    t0, hstatus         # a virtual instruction, which the hypervisor takes: code 22, 'W'
    .word   0                   # an illegal one, which the hypervisor takes: code 2, 'C'
    li      t0, 0x20
    csrs    sie, t0             # the timer, code 5
    csrsi   sstatus, 2
    li      a7, 0
    li      a0, 0
    ecall                       # the timer's interrupt comes before the next instruction: 'T'
    li      a7, 8
    ecall                       # the guest stops

    .balign 4
vectors:
    j       fault
    .space  16
    li      a7, 0               # vectors + 20
    li      a0, -1
    ecall                       # no more timer
    li      a7, 1
    li      a0, 'T'
    ecall
    sret
fault:
    li      a7, 1
    li      a0, 'P'
    ecall
    csrr    t0, sepc
    addi    t0, t0, 4
    csrw    sepc, t0
    sret

    .balign 8
saved:
    .dword  0, 0, 0
