# The world switch of hypervisor.c, and of that of examples/sbi.
    .option norelax
    .globl  run
    .macro  each op, base       # loads or stores all registers but x2 and x10
    .irp    i, 1,3,4,5,6,7,8,9,11,12,13,14,15,16,17,18,19,20,21,22,23,24,25,26,27,28,29,30,31
    \op     x\i, 8 * \i(\base)
    .endr
    .endm

# run(context): the guest goes on until it traps into HS. The caller's registers are kept on its stack.
    .text
run:
    addi    sp, sp, -256
    each    sd, sp
    csrw    sscratch, a0
    la      t0, back
    csrrw   t0, stvec, t0
    sd      t0, 0(sp)           # the caller's handler
    la      t0, caller
    sd      sp, 0(t0)
    ld      t0, 0(a0)
    csrw    sepc, t0
    each    ld, a0
    ld      sp, 8 * 2(a0)
    ld      a0, 8 * 10(a0)
    sret
    .balign 4
back:
    csrrw   a0, sscratch, a0    # the guest's context; sscratch has its a0
    each    sd, a0
    sd      sp, 8 * 2(a0)
    csrr    t0, sscratch
    sd      t0, 8 * 10(a0)
    csrr    t0, sepc
    sd      t0, 0(a0)
    la      t0, caller
    ld      sp, 0(t0)
    ld      t0, 0(sp)
    csrw    stvec, t0
    each    ld, sp
    addi    sp, sp, 256
    ret

    .bss
    .balign 8
caller:
    .skip   8
