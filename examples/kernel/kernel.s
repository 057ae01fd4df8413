# A kernel in S and a program in U, under Sv39. The kernel puts the code of each exception but a call of U on the
# console, as a hexadecimal digit. After a page fault of U it maps the page, so that the access is made again; after
# any other exception it goes on behind the instruction.
    .globl _start
    .equ KERNEL, 0x80000000     # a 2 MiB leaf of S, at its own address
    .equ USER,   0x80001000     # the page 0x1000 of U, execute-only
    .equ SAVED,  0x80002000     # the page 0x2000 of S: a byte, then what a trap saves
    .equ LAZY,   0x80003000     # the page 0x3000 of U, without an entry at first
    .equ ROOT,   0x80004000
    .equ LOW,    0x80005000     # level 1 for the pages
    .equ HIGH,   0x80006000     # level 1 for the kernel
    .equ PAGES,  0x80007000     # level 0
    .equ V, 1
    .equ R, 2
    .equ W, 4
    .equ X, 8
    .equ U, 16
    .equ A, 64
    .equ D, 128

_start:
    la      t0, stores
store:
    ld      t1, 0(t0)
    ld      t2, 8(t0)
    sd      t2, 0(t1)
    addi    t0, t0, 16
    ld      t1, 0(t0)
    bnez    t1, store
    la      t0, traps + 1       # mode 1: interrupt 1 goes to traps + 4
    csrw    stvec, t0
    li      t0, 0x2008
    csrw    sscratch, t0
    li      t0, 8 << 60 | ROOT >> 12
    csrw    satp, t0
    sfence.vma

    li      a7, 1               # call 1 puts the byte in a0
    li      t0, 0x2000
    lbu     a0, 0(t0)           # a page of S
    ecall
    li      a0, ' '
    ecall
    csrsi   sie, 2
    csrsi   sip, 2
    csrsi   sstatus, 2          # SIE: the interrupt comes before the next instruction
    li      a0, ' '
    ecall
    lw      t1, 1(t0)           # misaligned
    ebreak
    li      a0, ' '
    ecall
    li      t0, 0x1004
    csrw    sepc, t0
    sret                        # SPP is 0: to U

back:
    li      a7, 1
    li      t0, 0x3000
    li      t1, 1 << 18         # SUM
    lbu     a0, 0(t0)
    csrs    sstatus, t1
    lbu     a0, 0(t0)
    ecall
    li      a0, ' '
    ecall
    li      t0, 0x1000
    li      t1, 1 << 19         # MXR
    lbu     a0, 0(t0)
    csrs    sstatus, t1
    lbu     a0, 0(t0)
    ecall
    li      a7, 8               # call 8 stops the guest
    ecall

    .balign 4
traps:
    j       exception
    csrrw   sp, sscratch, sp    # the software interrupt
    sd      a0, 0(sp)
    sd      a7, 8(sp)
    csrci   sip, 2
    li      a0, 'I'
    li      a7, 1
    ecall
    j       leave
exception:
    csrrw   sp, sscratch, sp
    sd      a0, 0(sp)
    sd      a7, 8(sp)
    sd      t0, 16(sp)
    sd      t1, 24(sp)
    csrr    t0, scause
    addi    t1, t0, -8
    beqz    t1, called
    addi    a0, t0, '0'
    li      t1, 10
    bltu    t0, t1, digit
    addi    a0, a0, 'a' - '0' - 10
digit:
    li      a7, 1
    ecall
    csrr    t1, sstatus
    andi    t1, t1, 0x100       # SPP
    bnez    t1, skip
    addi    t1, t0, -2
    beqz    t1, illegal
    csrr    t1, stval           # a page fault of U: the frame is at KERNEL plus the page's address
    srli    t1, t1, 12
    slli    a0, t1, 10
    li      a7, KERNEL >> 2 | V | R | W | U | A
    add     a0, a0, a7
    andi    t0, t0, 2           # 2 of a store's code 15, 0 of a load's code 13
    slli    t0, t0, 6           # D or 0
    or      a0, a0, t0
    slli    t1, t1, 3
    li      a7, PAGES
    add     t1, t1, a7
    sd      a0, 0(t1)
    sfence.vma
    j       restore             # to the same instruction
illegal:
    csrr    t0, stval
    lw      t1, denied
    bne     t0, t1, skip
    li      a0, '='             # stval is the word
    ecall
    j       skip
called:
    li      t1, 1
    bne     a7, t1, exit
    ecall
skip:
    csrr    t0, sepc
    addi    t0, t0, 4
    csrw    sepc, t0
restore:
    ld      t0, 16(sp)
    ld      t1, 24(sp)
leave:
    ld      a0, 0(sp)
    ld      a7, 8(sp)
    csrrw   sp, sscratch, sp
    sret
exit:
    la      t0, back
    csrw    sepc, t0
    li      t0, 0x100
    csrs    sstatus, t0         # SPP
    j       restore

    .balign 8
stores:                         # each an address and a doubleword for it
    .dword  ROOT, LOW >> 2 | V
    .dword  ROOT + 8 * 2, HIGH >> 2 | V
    .dword  HIGH, KERNEL >> 2 | V | R | W | X | A | D
    .dword  LOW, PAGES >> 2 | V
    .dword  PAGES + 8 * 1, USER >> 2 | V | X | U | A
    .dword  PAGES + 8 * 2, SAVED >> 2 | V | R | W | A | D
    .dword  SAVED, 'S'
    .dword  LAZY, 'L'
    .dword  0

    .org    USER - KERNEL
    .word   'X'
    li      a7, 1               # the kernel's call 1 puts the byte in a0
    li      a0, 'U'
    ecall
    li      a0, ' '
    ecall
    li      t0, 0x3000
    lbu     a0, 0(t0)           # no entry
    ecall
    li      a0, ' '
    ecall
    li      a0, 'W'
    sb      a0, 0(t0)           # D is clear
    lbu     a0, 0(t0)
    ecall
    li      a0, ' '
    ecall
denied:
    csrr    a0, sscratch
    li      a0, ' '
    ecall
    li      a7, 2               # another call goes back to the kernel
    ecall
