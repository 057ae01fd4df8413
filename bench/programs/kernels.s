# Two kernels in VS under VMIDs 1 and 2, each with Sv39 of its own, take turns: each counts a doubleword up a thousand
# times and makes a call. The checksum is the doubleword. A round takes some 1,000,000 steps.
    .include "nested.s"
    .globl  checksum
checksum:
    li      t0, 200             # turns of 5,009 steps
    mul     s0, a0, t0
    second_stage s1
    li      t0, 1
    slli    t0, t0, 44
    add     s2, s1, t0          # VMID 2
    csrw    hgatp, s1
    la      s3, first_root
    li      t0, 0x80000000 >> 2 | 0xCF
    sd      t0, 16(s3)          # RAM, at its own address: a leaf of 1 GiB; V, R, W, X, A, D
    srli    s3, s3, 12
    li      t0, 8
    slli    t0, t0, 60
    or      s3, s3, t0
    la      s4, kernel
    la      s5, counter
    to_guest
    j       enter

    .balign 4
back:
    addi    s0, s0, -1
    beqz    s0, done
enter:
    csrw    vsatp, s3
    csrrw   s2, hgatp, s2
    csrw    sepc, s4
    sret

kernel:
    li      t0, 1000
count:
    ld      t1, 0(s5)
    addi    t1, t1, 1
    sd      t1, 0(s5)
    addi    t0, t0, -1
    bnez    t0, count
    ecall

done:
    ld      a0, 0(s5)
    ret

    .bss
    .balign 0x1000
first_root:
    .zero   0x1000
counter:
    .zero   8
