# A loop under Sv39 that loads by an entry of a table and stores another entry there, to the other of two pages.
# A round takes some 1,000,000 steps. Without SFENCE.VMA the standard leaves open by which entry a load goes, so nothing
# is summed. With it (FENCED) a round takes as many steps, and the sum of the bytes is the checksum.
    .globl  checksum
checksum:
    la      t0, root
    la      t1, middle
    la      t2, low
    srli    t3, t1, 2
    ori     t3, t3, 0x01        # V
    sd      t3, 0(t0)
    li      t3, 0x80000000 >> 2 | 0xCF
    sd      t3, 16(t0)          # RAM, at its own address: a leaf of 1 GiB; V, R, W, X, A, D
    srli    t3, t2, 2
    ori     t3, t3, 0x01
    sd      t3, 0(t1)
    la      t3, first
    srli    t3, t3, 2
    ori     t3, t3, 0x43        # V, R, A
    sd      t3, 8(t2)           # address 1000
    la      t4, second
    srli    t4, t4, 2
    ori     t4, t4, 0x43
    csrw    sscratch, t3
    srli    t0, t0, 12
    li      t1, 8
    slli    t1, t1, 60
    or      t0, t0, t1
    csrw    satp, t0
    sfence.vma
    li      t0, 0x1000
    li      a1, 0
    .ifdef  FENCED
    li      t1, 142857
    .else
    li      t1, 166667
    .endif
    mul     a0, a0, t1
loop:
    lbu     t1, 0(t0)
    sd      t4, 8(t2)
    csrrw   t4, sscratch, t4
    .ifdef  FENCED
    sfence.vma t0, zero
    add     a1, a1, t1
    .else
    csrr    t1, sstatus
    .endif
    addi    a0, a0, -1
    bnez    a0, loop
    csrw    satp, zero
    sfence.vma
    mv      a0, a1
    ret

    .data
    .balign 0x1000
first:
    .byte   0x41
    .balign 0x1000
second:
    .byte   0x42
    .bss
    .balign 0x1000
root:
    .zero   0x1000
middle:
    .zero   0x1000
low:
    .zero   0x1000
