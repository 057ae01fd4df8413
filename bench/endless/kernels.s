# Two kernels under VMIDs 1 and 2 take turns, each with its own first stage by the table at 3000, a leaf of 1 GiB. Each
# counts a doubleword up a thousand times and makes a call.
    .include "nest.s"
    csrw    vsatp, t2
    csrrw   t1, hgatp, t1
    csrw    sepc, s1
    sret

    .org    0x400
    .dword  8 << 60 | 1 << 44 | 0x80004 # hgatp: Sv39x4, VMID 1
    .dword  8 << 60 | 2 << 44 | 0x80004 # hgatp: VMID 2
    .dword  8 << 60 | 3         # vsatp: Sv39
    .org    0x1000
    li      a5, 1000
count:
    ld      a0, 0(a1)
    addi    a0, a0, 1
    sd      a0, 0(a1)
    addi    a5, a5, -1
    bnez    a5, count
    ecall

    .org    0x3000
    .dword  0xCF                # V, R, W, X, A, D
    .org    0x4000
    .dword  0x80000000 >> 2 | 0xDF      # V, R, W, X, U, A, D
