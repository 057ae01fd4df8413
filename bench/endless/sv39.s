# A kernel under Sv39. Its memory is a leaf of 1 GiB. Each round of five steps reads a byte by the entry of one page,
# and stores another entry there, to the other of two frames. There is no SFENCE.VMA, so the standard leaves open by
# which of the two a load goes, and nothing is made of the byte.
    .globl  _start
_start:
    auipc   s0, 0
    ld      t0, 0x400(s0)       # satp
    csrw    satp, t0
    lui     s1, 1               # the page
    lui     t2, 6
    add     t2, t2, s0          # the table with its entry
    ld      t1, 8(t2)
    csrw    sscratch, t1
    ld      t1, 0x408(s0)       # the other entry
round:
    lbu     a0, 0(s1)
    sd      t1, 8(t2)
    csrrw   t1, sscratch, t1
    csrr    t0, sstatus
    j       round

    .org    0x400
    .dword  8 << 60 | 0x80004   # satp: Sv39, and the root
    .dword  0x8000B000 >> 2 | 0x43      # V, R, A
    .org    0x4000              # the root: the table at 5000, and a leaf of 1 GiB: V, R, W, X, A, D
    .dword  0x80005000 >> 2 | 1, 0, 0x80000000 >> 2 | 0xCF
    .org    0x5000
    .dword  0x80006000 >> 2 | 1
    .org    0x6008
    .dword  0x8000A000 >> 2 | 0x43
    .org    0xA000
    .byte   0x41
    .org    0xB000
    .byte   0x42
