# Step 5 of docs/guest-hypervisor.md: a hypervisor in HS with two kernels in VS, which run the same code under tables
# of their own. The hypervisor exchanges the registers of VS, delegates a page fault, and injects an interrupt.
    .option norelax             # the linker changes no instruction, so .org is where it says
    .globl  _start

    # What the hypervisor has of a kernel: sepc at 0, register i at 8 * i, and then:
    .equ HGATP, 256
    .equ LEVEL0, 264            # its table of level 0
    .equ LEAF, 272              # the leaf of its page 0, if that had no code
    .equ OTHER, 280             # the other kernel
    .equ ENDED, 288
    .equ VS, 296                # nine registers
    .equ HVIP, VS + 64          # the last one

    .macro  registers op        # all but x0, which is zero, and x2, which is sp
    .irp    i, 1,3,4,5,6,7,8,9,10,11,12,13,14,15,16,17,18,19,20,21,22,23,24,25,26,27,28,29,30,31
    \op     x\i, 8 * \i(sp)
    .endr
    .endm
    .macro  exchange name, at   # keeps a register for the kernel at sp, and sets it for the one at t1
    csrr    t0, \name
    sd      t0, \at(sp)
    ld      t0, \at(t1)
    csrw    \name, t0
    .endm

_start:
    la      t0, traps
    csrw    stvec, t0
    li      t0, 1 << 13         # a load's page fault goes to the kernel
    csrw    hedeleg, t0
    li      t0, 1 << 2          # so does the software interrupt of VS
    csrw    hideleg, t0
    li      t0, 0x80
    csrs    hstatus, t0         # SPV
    li      t0, 0x100
    csrs    sstatus, t0         # SPP
    la      sp, one

run:                            # goes on with the kernel at sp
    csrw    sscratch, sp
    ld      t0, HGATP(sp)
    csrw    hgatp, t0
    ld      t0, 0(sp)
    csrw    sepc, t0
    registers ld
    ld      sp, 8 * 2(sp)
    sret                        # each trap has set SPV and SPP

traps:
    csrrw   sp, sscratch, sp    # sp: the kernel's structure. sscratch: the kernel's sp
    registers sd
    csrr    t0, sscratch
    sd      t0, 8 * 2(sp)
    csrr    t0, sepc
    sd      t0, 0(sp)
    csrr    t0, scause
    li      t1, 10
    bne     t0, t1, fault
    ld      t0, 0(sp)           # a call of VS: goes on behind it
    addi    t0, t0, 4
    sd      t0, 0(sp)
    addi    t0, a7, -2
    beqz    t0, switch
    addi    t0, a7, -3
    beqz    t0, inject
    addi    t0, a7, -8
    beqz    t0, end
    ecall                       # the environment makes it
    sd      a0, 8 * 10(sp)      # the answer
    j       run

inject:                         # call 3: the other kernel gets the software interrupt
    ld      t1, OTHER(sp)
    ld      t0, HVIP(t1)
    ori     t0, t0, 1 << 2
    sd      t0, HVIP(t1)
    j       run
end:                            # call 8: this kernel ends, and with the last one the guest
    sd      a7, ENDED(sp)
    ld      t1, OTHER(sp)
    ld      t0, ENDED(t1)
    beqz    t0, switch
    ecall
switch:                         # call 2: the other kernel goes on, unless it has ended
    ld      t1, OTHER(sp)
    ld      t0, ENDED(t1)
    bnez    t0, run
    exchange vsstatus, VS
    exchange vstvec, VS + 8
    exchange vsscratch, VS + 16
    exchange vsepc, VS + 24
    exchange vscause, VS + 32
    exchange vstval, VS + 40
    exchange vsatp, VS + 48
    exchange hie, VS + 56       # vsie shows its bits that hideleg has
    exchange hvip, HVIP         # so does vsip of this one
    mv      sp, t1
    j       run                 # no fence: the kernels have two VMIDs

fault:
    li      t1, 20
    bltu    t0, t1, other       # these kernels raise no 22, a virtual instruction
    csrr    t0, htval
    srli    t1, t0, 10          # the page p
    slli    t2, t1, 10
    ld      t3, LEAF(sp)
    add     t2, t2, t3
    slli    t1, t1, 3
    ld      t3, LEVEL0(sp)
    add     t1, t1, t3
    sd      t2, 0(t1)
    .insn   r 0x73, 0, 0x31, zero, t0, zero     # hfence.gvma t0, zero
    j       run                 # to the same instruction
other:
    li      a0, '!'
    li      a7, 1
    ecall
    li      a7, 8
    ecall

    .balign 8
one:
    .zero   8 * 10
    .dword  'A'                 # a0
    .zero   HGATP - 8 * 11
    .dword  8 << 60 | 1 << 44 | 0x80004000 >> 12, 0x80009000, 0x80020000 >> 2 | 0xD7, two
    .zero   VS + 8 * 9 - ENDED
two:
    .zero   8 * 10
    .dword  'a'                 # a0
    .zero   HGATP - 8 * 11
    .dword  8 << 60 | 2 << 44 | 0x8000C000 >> 12, 0x80011000, 0x80030000 >> 2 | 0xD7, one
    .zero   VS + 8 * 9 - ENDED

    .org    0x1000              # the kernels; a0 is the letter
    la      t0, own
    csrw    stvec, t0           # which is vstvec
    mv      s0, a0
    li      s1, 0x2000          # page 2: a table of one leaf of 1 GiB
    li      t0, 0xCF            # V, R, W, X, A, D
    sd      t0, 0(s1)
    srli    t0, s1, 12
    li      t1, 8
    slli    t1, t1, 60
    or      t0, t0, t1
    csrw    satp, t0            # Sv39
    sfence.vma
    csrsi   sie, 2              # SSIE
    csrsi   sstatus, 2          # SIE: what is pending comes now
    mv      a0, s0
    li      a7, 1
    ecall                       # the letter
    addi    t0, s0, 1
    li      t1, 0x1000
    sd      t0, 0(t1)           # the next letter, to page 1
    li      a7, 3
    ecall                       # an interrupt for the other kernel
    li      a7, 2
    ecall                       # its turn
    li      t0, 1 << 30
    add     t0, t0, t1
    lbu     a0, 0(t0)           # page 1, by an address that the table does not have yet
    li      a7, 1
    ecall                       # the next letter
    li      a7, 8
    ecall

own:                            # the kernel's own traps; s2 to s4 are theirs
    mv      s2, a0
    mv      s3, a7
    li      a7, 1
    csrr    s4, scause
    bltz    s4, interrupt
    li      a0, 'P'
    ecall
    li      s4, 0xCF
    sd      s4, 8(s1)           # the second GiB is the first one too
    sfence.vma
    j       back                # to the same instruction
interrupt:
    csrci   sip, 2              # SSIP: the kernel clears it itself
    li      a0, 'I'
    ecall
back:
    mv      a0, s2
    mv      a7, s3
    sret

    .org    0x4000              # the first kernel's root table
    .dword  0x80008000 >> 2 | 0x01
    .org    0x8000              # its level 1
    .dword  0x80009000 >> 2 | 0x01
    .org    0x9000              # its level 0; page 0 is the code: V, R, X, U, A
    .dword  0x80001000 >> 2 | 0x5B
    .org    0xC000              # the second kernel's
    .dword  0x80010000 >> 2 | 0x01
    .org    0x10000
    .dword  0x80011000 >> 2 | 0x01
    .org    0x11000
    .dword  0x80001000 >> 2 | 0x5B
