# A hypervisor in HS with two kernels in VS, each with a second-stage table (Sv39x4) and a VMID of its own. A kernel has
# sixteen pages from guest physical 0 on. Page 0 is the code, one frame for both; each other page gets a frame at its
# first access. A kernel can have a page moved to another frame, and fenced. The second kernel runs the same code under
# a first-stage table (Sv39) that it makes itself.
    .option norelax             # the linker leaves each instruction as it is
    .globl  _start
    .equ ROOTS,  0x80004000     # two root tables of 16 KiB
    .equ LEVEL1, 0x8000C000     # two tables of level 1
    .equ LEVEL0, 0x8000E000     # two tables of level 0
    .equ FRAMES, 0x80010000     # the frames that the kernels get
    .equ PAGES, 16              # of each kernel
    .equ TABLE_AT, 0x01         # an entry that points to a table: V
    .equ CODE_LEAF, 0x5B        # V, R, X, U and A
    .equ DATA_LEAF, 0xD7        # V, R, W, U, A and D
    .equ OWN_LEAF, 0xCF         # of a kernel's own table: V, R, W, X, A and D
    .equ SPP, 0x100             # of sstatus
    .equ SPV, 0x80              # of hstatus
    .equ ECALL_FROM_VS, 10
    .equ FETCH_FAULT, 20        # guest-page faults: 20 of a fetch, 21 of a load, 23 of a store

    # What the hypervisor has of a kernel: sepc at 0, register i at 8 * i, and then:
    .equ HGATP, 256
    .equ VMID, 264
    .equ TABLE, 272             # its table of level 0
    .equ NEXT, 280              # the other kernel
    .equ ENDED, 288
    .equ FAULTS, 296            # how many faults: four counts, for the codes 20 to 23
    .equ VS, 328                # seven registers of VS

    # HFENCE.GVMA; an assembler has this name only where -march has the hypervisor extension.
    .macro  hfence_gvma address, vmid
    .insn   r 0x73, 0, 0x31, zero, \address, \vmid
    .endm
    # Loads or stores all registers but sp, which is x2.
    .macro  registers op
    .irp    i, 1,3,4,5,6,7,8,9,10,11,12,13,14,15,16,17,18,19,20,21,22,23,24,25,26,27,28,29,30,31
    \op     x\i, 8 * \i(sp)
    .endr
    .endm
    # Keeps a register of VS for the kernel at sp, and sets it for the kernel at t1.
    .macro  exchange name, at
    csrr    t0, \name
    sd      t0, \at(sp)
    ld      t0, \at(t1)
    csrw    \name, t0
    .endm

_start:
    la      t0, stores
store:
    ld      t1, 0(t0)
    ld      t2, 8(t0)
    sd      t2, 0(t1)
    addi    t0, t0, 16
    ld      t1, 0(t0)
    bnez    t1, store
    la      t0, traps
    csrw    stvec, t0
    la      sp, one

run:                            # goes on with the kernel at sp
    csrw    sscratch, sp
    ld      t0, HGATP(sp)
    csrw    hgatp, t0
    ld      t0, 0(sp)
    csrw    sepc, t0
    li      t0, SPP
    csrs    sstatus, t0
    li      t0, SPV
    csrs    hstatus, t0
    registers ld
    ld      sp, 8 * 2(sp)
    sret                        # to sepc in VS, since SPV and SPP are set

traps:
    csrrw   sp, sscratch, sp    # the kernel's structure
    registers sd
    csrr    t0, sscratch
    sd      t0, 8 * 2(sp)
    csrr    t0, sepc
    sd      t0, 0(sp)
    csrr    s0, scause
    addi    t0, s0, -ECALL_FROM_VS
    beqz    t0, call
    addi    s0, s0, -FETCH_FAULT
    beqz    s0, fault
    addi    t0, s0, -1          # of a load
    beqz    t0, fault
    addi    t0, s0, -3          # of a store
    beqz    t0, fault
bad:                            # what the hypervisor does not expect
    li      a0, '!'
    li      a7, 1
    ecall
    j       stop

fault:                          # maps a page; s0 is the code less 20
    csrr    a0, htval           # the guest physical address, shifted right by 2
    srli    a1, a0, 10          # its page
    jal     entry
    bnez    t0, bad             # it is mapped: this is a store to the code
    slli    t2, s0, 3
    add     t2, t2, sp
    ld      t0, FAULTS(t2)
    addi    t0, t0, 1
    sd      t0, FAULTS(t2)
    la      t2, code            # page 0 has the code, and no right to write
    srli    t2, t2, 2
    addi    t2, t2, CODE_LEAF
    beqz    a1, set
    jal     frame               # another page has a frame of zeros
    srli    t2, t2, 2
    addi    t2, t2, DATA_LEAF
set:
    sd      t2, 0(t1)
    j       fence_page          # then the same instruction is made again

call:                           # a7 says which; a0 is a byte or a guest physical address
    ld      t0, 0(sp)
    addi    t0, t0, 4
    sd      t0, 0(sp)
    ld      a0, 8 * 10(sp)
    ld      a7, 8 * 17(sp)
    addi    t0, a7, -1
    beqz    t0, put
    addi    t0, a7, -2
    beqz    t0, switch
    addi    t0, a7, -3
    beqz    t0, move
    addi    t0, a7, -4
    beqz    t0, fence
    addi    t0, a7, -8
    bnez    t0, bad
    li      t0, 1               # call 8: the kernel ends
    sd      t0, ENDED(sp)
switch:                         # call 2: the other kernel goes on, unless it has ended
    ld      t1, NEXT(sp)
    ld      t0, ENDED(t1)
    bnez    t0, alone
    exchange vsstatus, VS
    exchange vstvec, VS+8
    exchange vsscratch, VS+16
    exchange vsepc, VS+24
    exchange vscause, VS+32
    exchange vstval, VS+40
    exchange vsatp, VS+48
    mv      sp, t1
    j       run
put:                            # call 1: the environment puts the byte
    ecall
    j       run
move:                           # call 3: the page at a0 goes to another frame
    srli    a1, a0, 12
    jal     entry
    beqz    t0, bad
    andi    a2, t0, 0x3FF       # the leaf's flags
    srli    a3, t0, 10
    slli    a3, a3, 12          # the old frame
    jal     frame
    mv      a4, t2
copy:
    ld      t0, 0(a3)
    sd      t0, 0(a4)
    addi    a3, a3, 8
    addi    a4, a4, 8
    bne     a4, t3, copy
    lbu     t0, 0(t2)           # one more in the first byte, to tell the frames apart
    addi    t0, t0, 1
    sb      t0, 0(t2)
    srli    t2, t2, 2
    or      t2, t2, a2
    sd      t2, 0(t1)
    j       run                 # with no fence yet: the kernel still has the old frame
fence:                          # call 4: the page at a0 is fenced
    srli    a0, a0, 2
fence_page:                     # at a0, shifted right by 2, and for this kernel alone
    ld      t0, VMID(sp)
    hfence_gvma a0, t0
    j       run
entry:                          # t1 is the place of page a1's entry, t0 the entry
    li      t0, PAGES
    bgeu    a1, t0, bad
    slli    t1, a1, 3
    ld      t0, TABLE(sp)
    add     t1, t1, t0
    ld      t0, 0(t1)
    ret
frame:                          # t2 is a frame that nobody has, t3 its end
    la      t0, next_frame
    ld      t2, 0(t0)
    li      t3, 4096
    add     t3, t3, t2
    sd      t3, 0(t0)
    ret

alone:
    ld      t0, ENDED(sp)
    beqz    t0, run             # the other has ended, this one has not
    la      sp, one             # the report: each kernel's VMID, and its faults of a fetch, a load, a store
line:
    li      a7, 1
    li      a0, 10
    ecall
    ld      a0, VMID(sp)
    jal     digit
    li      a0, ':'
    ecall
    ld      a0, FAULTS(sp)
    jal     digit
    ld      a0, FAULTS + 8(sp)
    jal     digit
    ld      a0, FAULTS + 24(sp)
    jal     digit
    ld      sp, NEXT(sp)
    la      t0, one
    bne     sp, t0, line
stop:
    li      a7, 8
    ecall
digit:
    addi    a0, a0, '0'
    ecall
    ret

    .balign 8
stores:                         # each an address and a doubleword for it: what the tables begin with
    .dword  ROOTS, LEVEL1 >> 2 | TABLE_AT
    .dword  LEVEL1, LEVEL0 >> 2 | TABLE_AT
    .dword  ROOTS + 0x4000, (LEVEL1 + 0x1000) >> 2 | TABLE_AT
    .dword  LEVEL1 + 0x1000, (LEVEL0 + 0x1000) >> 2 | TABLE_AT
    .dword  0
next_frame:
    .dword  FRAMES
one:
    .zero   8 * 10
    .dword  'A', 0              # a0, a1
    .zero   HGATP - 8 * 12
    .dword  8 << 60 | 1 << 44 | ROOTS >> 12, 1, LEVEL0, two
    .zero   VS + 8 * 7 - ENDED
two:
    .zero   8 * 10
    .dword  'a', 1 << 30        # a0, a1
    .zero   HGATP - 8 * 12
    .dword  8 << 60 | 2 << 44 | (ROOTS + 0x4000) >> 12, 2, LEVEL0 + 0x1000, one
    .zero   VS + 8 * 7 - ENDED

    .org    0x1000
code:                           # at guest physical 0 of each kernel; a0 is its letter, a1 where it sees its memory
    beqz    a1, flat
    li      t0, 0x4000          # its table: the addresses 0 and 1 GiB are both guest physical 0
    li      t1, OWN_LEAF
    sd      t1, 0(t0)           # maps page 4
    sd      t1, 8(t0)
    srli    t0, t0, 12
    li      t1, 8
    slli    t1, t1, 60
    or      t0, t0, t1
    csrw    satp, t0
    sfence.vma
flat:
    li      t0, 0x1000
    add     s1, a1, t0          # page 1
    add     s2, s1, t0          # page 2
    li      a7, 1
    ecall                       # 'A' or 'a'
    addi    t0, a0, 1
    sb      t0, 0(s1)           # maps page 1
    lbu     a0, 0(s2)           # maps page 2, which is zero
    addi    a0, a0, '0'
    ecall                       # '0'
    li      a0, ' '
    ecall
    li      a7, 2
    ecall
    li      a7, 1
    lbu     a0, 0(s1)
    ecall                       # 'B' or 'b': each has a page 1 of its own
    li      a7, 3
    li      a0, 0x1000
    ecall                       # moves page 1
    li      a7, 1
    lbu     a0, 0(s1)
    ecall                       # the same: from the old frame
    li      a0, ' '
    ecall
    li      a7, 2
    ecall
    li      a7, 1
    lbu     a0, 0(s1)
    ecall                       # the same, also after the other's fence
    li      a7, 4
    li      a0, 0x1000
    ecall                       # fences page 1
    li      a7, 1
    lbu     a0, 0(s1)
    ecall                       # 'C' or 'c': from the new frame
    li      a0, ' '
    ecall
    li      a7, 8
    ecall
