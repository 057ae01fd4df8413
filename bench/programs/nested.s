# What the images with nested guests share: the second-stage table, and the entry into VS.

# second_stage REGISTER: hgatp for VMID 1, under whose table RAM lies at its own address. It changes t0 and t1
    .macro  second_stage register
    la      \register, second_root
    li      t0, 0x80000000 >> 2 | 0xDF
    sd      t0, 16(\register)   # a leaf of 1 GiB: V, R, W, X, U, A, D
    srli    \register, \register, 12
    li      t0, 8 << 16 | 1     # Sv39x4, VMID 1
    slli    t0, t0, 44
    or      \register, \register, t0
    .endm

# to_guest: from here on SRET goes to VS, and each trap comes back to `back`. It changes t0
    .macro  to_guest
    la      t0, back
    csrw    stvec, t0
    li      t0, 0x100
    csrs    sstatus, t0         # SPP
    li      t0, 0x80
    csrs    hstatus, t0         # SPV
    .endm

    .bss
    .balign 0x4000
second_root:
    .zero   0x4000
    .text
