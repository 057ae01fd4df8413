# A hypervisor of a kernel that yields to nobody. At each yield it clears hvip, so the timer interrupt that the kernel has
# not taken yet is lost.
    .globl _start
_start:
    la      t0, on_trap
    csrw    stvec, t0
    li      t0, 0x40            # VSTI is the kernel's
    csrw    hideleg, t0
    li      t0, 0x20
    csrw    sie, t0
    li      a0, 150
    li      a7, 0
    ecall                       # call 0 sets the timer
    la      t0, kernel
    csrw    sepc, t0
    li      t0, 0x80            # SPV
    csrs    hstatus, t0
    li      t0, 0x100           # SPP
    csrs    sstatus, t0
    sret

    .balign 4
on_trap:
    csrw    sscratch, t0
    csrr    t0, scause
    bltz    t0, tick
    csrr    t0, sepc            # a call of the kernel: 1 yields, all others end
    addi    t0, t0, 4
    csrw    sepc, t0
    li      t0, 1
    bne     a7, t0, stop
    csrw    hvip, zero          # the fault: it is to be kept for the kernel
    csrr    t0, sscratch
    sret
tick:
    li      t0, 0x40
    csrs    hvip, t0            # the kernel's timer interrupt is pending
    li      t0, 0x20
    csrc    sie, t0             # there is one tick
    csrr    t0, sscratch
    sret
stop:
    li      a7, 8
    ecall

    .balign 4
kernel:
    la      t0, kernel_tick
    csrw    stvec, t0
    li      t0, 0x20
    csrw    sie, t0
    li      s0, 0
    li      a7, 1
again:
    csrci   sstatus, 2          # a part that no interrupt may break
    addi    t1, t1, 1
    addi    t1, t1, 1
    ecall                       # yields
    csrsi   sstatus, 2
    li      t2, 12
work:
    addi    t2, t2, -1
    bnez    t2, work
    beqz    s0, again
    li      a7, 2
    ecall

    .balign 4
kernel_tick:
    li      s0, 1
    li      t0, 0x20
    csrc    sie, t0
    sret
