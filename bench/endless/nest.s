# What the images with a nested guest begin with. The table of hgatp, at 4000, has RAM as a leaf of 1 GiB, at guest
# physical address 0. The hypervisor goes on at `enter`, and so does its trap handler. What follows this file is the
# code from `enter` on.
    .globl  _start
_start:
    auipc   s0, 0
    ld      t0, 0x400(s0)
    csrw    hgatp, t0
    addi    t0, s0, 0x34        # enter
    csrw    stvec, t0
    li      t0, 0x100           # SPP
    csrs    sstatus, t0
    li      t0, 0x80            # SPV
    csrs    hstatus, t0
    lui     s1, 1               # the nested guest
    lui     a1, 2
    ld      t1, 0x408(s0)
    ld      t2, 0x410(s0)
enter:
