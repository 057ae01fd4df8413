# A nested guest that reads a byte at each address from 2000 on, in steps of the doubleword at 408, up to the one at
# 410, again and again. bench/folded.sh writes the two.
    .include "nest.s"
    csrw    sepc, s1
    sret

    .org    0x400
    .dword  8 << 60 | 1 << 44 | 0x80004 # hgatp: Sv39x4, VMID 1
    .dword  0, 0
    .org    0x1000
again:
    lui     a1, 2
page:
    lbu     a0, 0(a1)
    add     a1, a1, t1
    bne     a1, t2, page
    j       again
    .org    0x4000
    .dword  0x80000000 >> 2 | 0xDF      # V, R, W, X, U, A, D
