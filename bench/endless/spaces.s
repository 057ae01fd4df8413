# Runs a nested guest under each of eight values of hgatp, so that eight spaces have cached translations, and then
# loops. The nested guest reads a byte of each page from 2000 on, up to the one at the doubleword at 408.
# bench/moves.sh writes that.
    .globl  _start
_start:
    auipc   s0, 0
    ld      t0, 0x400(s0)
    ld      t2, 0x408(s0)
    addi    t1, s0, 0x3C        # left
    csrw    stvec, t1
    li      t1, 0x100           # SPP
    csrs    sstatus, t1
    li      t1, 0x80            # SPV
    csrs    hstatus, t1
    lui     s1, 1               # the nested guest, and a page
    li      s2, 8
enter:
    csrw    hgatp, t0
    csrw    sepc, s1
    lui     a1, 2
    sret
left:                           # the next VMID
    li      t1, 1
    slli    t1, t1, 44
    add     t0, t0, t1
    addi    s2, s2, -1
    bnez    s2, enter
    j       .

    .org    0x400
    .dword  8 << 60 | 1 << 44 | 0x80004 # hgatp: Sv39x4, VMID 1
    .dword  0x3000
    .org    0x1000
page:
    lbu     a0, 0(a1)
    add     a1, a1, s1
    bne     a1, t2, page
    ecall
    .org    0x4000
    .dword  0x80000000 >> 2 | 0xDF      # V, R, W, X, U, A, D
