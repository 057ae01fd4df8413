# A hypervisor that fences and enters its guest anew every 14 steps. The guest reads a byte, counts to nine and makes a
# call.
    .include "nest.s"
    .insn   r 0x73, 0, 0x31, zero, zero, zero   # hfence.gvma
    csrw    sepc, s1
    sret

    .org    0x400
    .dword  8 << 60 | 1 << 44 | 0x80004 # hgatp: Sv39x4, VMID 1
    .org    0x1000
    lbu     a0, 0(a1)
    .rept   9
    addi    a0, a0, 1
    .endr
    ecall
    .org    0x4000
    .dword  0x80000000 >> 2 | 0xDF      # V, R, W, X, U, A, D
