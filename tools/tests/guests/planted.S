// A hypervisor in HS with two kernels in VS, in which one fault of some forty can be planted: FAULT has its number, and
// with 0 there is none. test_planted.py has what each of them is, and what doctor has to say of it. A fault changes no
// address: `either` puts the right instruction, or with that fault the wrong one.
#ifndef FAULT
#define FAULT 0
#endif
    .option norelax
    .globl  _start
    .equ NOP, 0
    .macro  either number, right, wrong
    .if     FAULT == \number
    \wrong
    .else
    \right
    .endif
    .endm
    .macro  hfence_gvma address, vmid
    .insn   r 0x73, 0, 0x31, zero, \address, \vmid
    .endm
    .macro  hlvx_wu to, from
    .insn   r 0x73, 4, 0x34, \to, \from, x3
    .endm

    // What the hypervisor has of a kernel: sepc at 0, register i at 8 * i, and then:
    .equ HGATP, 256
    .equ LEVEL0, 264            // its table of level 0
    .equ LEAF, 272              // the leaf of its page 0, if that had no code
    .equ OTHER, 280             // the other kernel
    .equ ENDED, 288
    .equ VS, 296                // eleven registers

    .equ STIE, 1 << 5           // of sie: the hypervisor's own timer
    .equ VSTIP, 1 << 6          // of hvip: the kernel's
    .equ FRAME, 1 << 10         // from an entry of one frame to that of the next
    .equ DEVICE, 0x40000        // a guest physical page that the hypervisor emulates
    .equ HOLE, 0x30000          // an address that the kernel does not map

    .macro  registers op        // all but x0, which is zero, x2, which is sp, and those of faults 4 and 5
    .irp    i, 1,3,4,5,6,7,8,9,10,11,12,14,15,16,17,19,20,21,22,23,24,25,26,27,28,29,30,31
    \op     x\i, 8 * \i(sp)
    .endr
    .endm
    .macro  exchange name, at   // keeps a register for the kernel at sp, and sets it for the one at t1
    csrr    t0, \name
    sd      t0, \at(sp)
    ld      t0, \at(t1)
    csrw    \name, t0
    .endm
    .macro  exchange_but number, name, at
    csrr    t0, \name
    sd      t0, \at(sp)
    ld      t0, \at(t1)
    either  \number, "csrw \name, t0", "nop"
    .endm

_start:
    la      t0, traps
    either  1, "csrw stvec, t0", "nop"
    li      t0, 1 << 1          // TM: VS may read the time
    either  2, "csrw hcounteren, t0", "nop"
    either  3, "li t0, VSTIP", "li t0, STIE"
    csrw    hideleg, t0
    li      t0, 0x100           // ECALL of VU, which no kernel here makes
    csrw    hedeleg, t0
    li      t0, 0x80
    either  6, "csrs hstatus, t0", "nop"    // SPV
    lui     t0, 0x200
    either  24, "nop", "csrs hstatus, t0"   // VTW
    li      t0, 0x100
    either  7, "csrs sstatus, t0", "nop"    // SPP
    la      sp, one

run:                            // goes on with the kernel at sp
    csrw    sscratch, sp
    ld      t0, HGATP(sp)
    either  8, "csrw hgatp, t0", "nop"
    ld      t0, 0(sp)
    csrw    sepc, t0
    registers ld
    either  4, "ld x13, 8 * 13(sp)", "nop"
    ld      x18, 8 * 18(sp)
    ld      sp, 8 * 2(sp)
    sret                        // each trap has set SPV and SPP

    .balign 4
traps:
    csrrw   sp, sscratch, sp    // sp: the kernel's structure. sscratch: the kernel's sp
    registers sd
    sd      x13, 8 * 13(sp)
    either  5, "sd x18, 8 * 18(sp)", "nop"
    csrr    t0, sscratch
    sd      t0, 8 * 2(sp)
    either  9, "nop", "csrsi sstatus, 2"    // SIE, too early
    csrr    t0, sepc
    sd      t0, 0(sp)
    csrr    t0, scause
    bltz    t0, timer
    li      t1, 10
    bne     t0, t1, fault
    ld      t0, 0(sp)           // a call of VS: goes on behind it
    either  10, "addi t0, t0, 4", "nop"
    either  11, "nop", "addi t0, t0, 4"
    sd      t0, 0(sp)
    beqz    a7, set
    addi    t0, a7, -2
    beqz    t0, switch
    addi    t0, a7, -3
    beqz    t0, move
    addi    t0, a7, -4
    beqz    t0, protect
    addi    t0, a7, -8
    beqz    t0, end
    either  12, "nop", "li a7, 16"
    ecall                       // the environment makes it
    sd      a0, 8 * 10(sp)      // the answer
    j       run

set:                            // call 0: the kernel's timer comes at a0
    either  42, "nop", "ebreak"
    either  13, "ecall", "nop"
    li      t0, VSTIP
    either  14, "csrc hvip, t0", "nop"
    li      t0, STIE
    either  15, "csrs sie, t0", "nop"
    j       run
timer:                          // the hypervisor's timer has come: so has the kernel's
    li      t0, STIE
    either  16, "csrc sie, t0", "nop"
    either  17, "li t0, VSTIP", "li t0, STIE"
    csrs    hvip, t0
    ld      t0, 0(sp)
    either  18, "nop", "addi t0, t0, 4"
    sd      t0, 0(sp)
    j       run

move:                           // call 3: the page at a0 goes to the next frame
    srli    t1, a0, 12
    slli    t1, t1, 3
    ld      t0, LEVEL0(sp)
    add     t1, t1, t0
    ld      t0, 0(t1)           // its entry
    srli    t2, t0, 10
    slli    t2, t2, 12          // its frame
    ld      t2, 0(t2)
    addi    t2, t2, 1           // one more in the first byte, to tell the frames apart
    addi    t0, t0, FRAME
    sd      t0, 0(t1)
    srli    t0, t0, 10
    slli    t0, t0, 12
    sd      t2, 0(t0)
    either  19, "srli t0, a0, 2", "mv t0, a0"
    ld      t1, HGATP(sp)
    either  20, "srli t1, t1, 44", "srli t1, t1, 43"
    either  21, "hfence_gvma t0, t1", "nop"
    j       run
protect:                        // call 4: the page at a0 is for reading alone
    srli    t1, a0, 12
    slli    t1, t1, 3
    ld      t0, LEVEL0(sp)
    add     t1, t1, t0
    ld      t0, 0(t1)
    andi    t0, t0, ~4
    sd      t0, 0(t1)
    srli    t0, a0, 2
    either  22, "hfence_gvma t0, zero", "nop"
    j       run

end:                            // call 8: this kernel ends, and with the last one the guest
    sd      a7, ENDED(sp)
    ld      t1, OTHER(sp)
    ld      t0, ENDED(t1)
    beqz    t0, switch
    either  23, "ecall", "j ."
switch:                         // call 2: the other kernel goes on, unless it has ended
    ld      t1, OTHER(sp)
    ld      t0, ENDED(t1)
    bnez    t0, run
    exchange vsstatus, VS
    exchange_but 25, vstvec, VS + 8
    exchange_but 26, vsscratch, VS + 16
    exchange vsepc, VS + 24
    exchange vscause, VS + 32
    exchange vstval, VS + 40
    exchange_but 27, vsatp, VS + 48
    exchange_but 28, hie, VS + 56
    exchange hvip, VS + 64
    either  29, "mv sp, t1", "nop"
    j       run                 // no fence: the kernels have two VMIDs

fault:
    li      t1, 13
    beq     t0, t1, pass
    li      t1, 15
    beq     t0, t1, pass
    li      t1, 20
    bltu    t0, t1, other
    li      t1, 22              // a virtual instruction
    beq     t0, t1, other
    either  30, "csrr a2, htval", "csrr a2, stval"
    li      a3, DEVICE >> 2
    srli    t1, a2, 10
    slli    t1, t1, 10
    beq     t1, a3, emulate
    either  31, "srli t1, a2, 10", "srli t1, a2, 12"   // its page
    slli    a3, t1, 10
    ld      t2, LEAF(sp)
    add     a3, a3, t2
    either  32, "nop", "andi a3, a3, ~0x40"     // A
    either  33, "nop", "andi a3, a3, ~0x10"     // U
    slli    t1, t1, 3
    ld      t2, LEVEL0(sp)
    add     t1, t1, t2
    sd      a3, 0(t1)
    hfence_gvma a2, zero
    ld      t0, 0(sp)
    either  34, "nop", "addi t0, t0, 4"
    sd      t0, 0(sp)
    j       run                 // to the same instruction

emulate:                        // a byte of the device: a store puts it, and a load gives 'd'
    csrr    a2, sepc
    hlvx_wu a3, a2
    srli    t1, a3, 5
    andi    t1, t1, 1
    bnez    t1, put
    srli    t1, a3, 7
    andi    t1, t1, 31          // the register
    either  35, "nop", "addi t1, t1, 1"
    slli    t1, t1, 3
    add     t1, t1, sp
    li      t0, 'd'
    sd      t0, 0(t1)
    j       behind
put:
    srli    t1, a3, 20
    andi    t1, t1, 31
    slli    t1, t1, 3
    add     t1, t1, sp
    ld      a0, 0(t1)
    li      a7, 1
    ecall
behind:
    ld      t0, 0(sp)
    either  36, "addi t0, t0, 4", "nop"
    sd      t0, 0(sp)
    j       run

pass:                           // a page fault, which the kernel takes
    either  37, "csrw vscause, t0", "nop"
    csrr    t0, stval
    either  38, "csrw vstval, t0", "nop"
    csrr    t0, sepc
    either  39, "csrw vsepc, t0", "nop"
    csrr    t0, vsstatus
    andi    t1, t0, 2           // SPIE is what SIE was
    slli    t1, t1, 4
    andi    t0, t0, ~0x22
    or      t0, t0, t1
    ori     t0, t0, 0x100       // SPP
    either  40, "csrw vsstatus, t0", "nop"
    csrr    t0, vstvec
    either  41, "sd t0, 0(sp)", "nop"
    j       run
other:
    li      a0, '!'
    li      a7, 1
    ecall
    li      a7, 8
    ecall

    .balign 8
one:
    .zero   8 * 10
    .dword  'A'                 // a0
    .zero   HGATP - 8 * 11
    .dword  8 << 60 | 1 << 44 | 0x80004000 >> 12, 0x80009000, 0x80020000 >> 2 | 0xDF, two     // V, R, W, X, U, A, D
    .zero   VS + 8 * 11 - ENDED
two:
    .zero   8 * 10
    .dword  'a'                 // a0
    .zero   HGATP - 8 * 11
    .if     FAULT == 43         // the other kernel's VMID
    .dword  8 << 60 | 1 << 44 | 0x8000C000 >> 12
    .elseif FAULT == 44         // a root that is not at a multiple of 16 KiB
    .dword  8 << 60 | 2 << 44 | 0x8000D000 >> 12
    .elseif FAULT == 45         // a MODE that there is not
    .dword  7 << 60 | 2 << 44 | 0x8000C000 >> 12
    .elseif FAULT == 46         // the other kernel's table
    .dword  8 << 60 | 2 << 44 | 0x80004000 >> 12
    .else
    .dword  8 << 60 | 2 << 44 | 0x8000C000 >> 12
    .endif
    .dword  0x80011000, 0x80050000 >> 2 | 0xDF, one
    .zero   VS + 8 * 11 - ENDED

    .org    0x1000
kernel:                         // each runs this code at guest physical 0; a0 is its letter
    lla     t0, handler
    li      t1, 'A'
    beq     a0, t1, 1f
    lla     t0, others
1:
    either  47, "csrw stvec, t0", "nop"         // which is vstvec
    mv      a3, a0              // its letter stays in a3, and in s2
    mv      s2, a0
    csrw    sscratch, a0
    li      a7, 1
    ecall                       // the letter
    li      s0, 0x8000
    sb      a0, 0(s0)           // to page 8
    // Its tables: pages 0 to 15 are mapped as they are, and page 64, the device, too.
    li      t0, 0x4000
    li      t1, 0x5000 >> 2 | 1
    sd      t1, 0(t0)
    li      t0, 0x5000
    li      t1, 0x6000 >> 2 | 1
    sd      t1, 0(t0)
    li      t0, 0x6000
    li      t1, 0xCF            // V, R, W, X, A, D
    li      t2, 16
1:  sd      t1, 0(t0)
    addi    t0, t0, 8
    addi    t1, t1, FRAME >> 1
    addi    t1, t1, FRAME >> 1
    addi    t2, t2, -1
    bnez    t2, 1b
    li      t0, 0x6000 + 8 * (DEVICE >> 12)
    li      t1, DEVICE >> 2 | 0xC7
    sd      t1, 0(t0)
    li      t0, 8 << 60 | 4
    csrw    satp, t0
    sfence.vma
    // Page 9 is page 10, and then page 11.
    li      s1, 0x9000
    li      t0, 0x6000 + 8 * 9
    li      t1, 0xA000 >> 2 | 0xC7
    sd      t1, 0(t0)
    sfence.vma s1, zero
    li      t2, 1
    sb      t2, 0(s1)
    li      t1, 0xB000 >> 2 | 0xC7
    sd      t1, 0(t0)
    either  48, "sfence.vma s1, zero", "nop"
    lbu     t2, 0(s1)
    // The hypervisor moves page 8, and protects page 10.
    li      a0, 0x8000
    li      a7, 3
    ecall
    lbu     a0, 0(s0)
    li      a7, 1
    ecall                       // the next letter, from the new frame
    li      t0, 0xA000
    lbu     t1, 0(t0)
    li      a0, 0xA000
    li      a7, 4
    ecall
    lbu     t1, 0(t0)
    // The device: a load and a store.
    li      s3, DEVICE
    lbu     a4, 0(s3)
    sb      a4, 0(s3)
    // A fault of its own, which its handler skips.
    li      s4, HOLE
    li      s5, 0
    lbu     s6, 0(s4)
    bnez    s5, 1f
    j       bad
1:  li      a7, 2
    ecall                       // the other kernel's turn
    li      t0, STIE
    csrs    sie, t0
    csrr    a0, time
    addi    a0, a0, 500
    either  49, "nop", "csrr t0, mhartid"
    either  50, "li a7, 0", "li a7, 7"
    ecall                       // the timer
sleep:
    wfi
    csrsi   sstatus, 2          // SIE: the tick comes now
    csrci   sstatus, 2
    beqz    s7, sleep
    csrr    a0, sscratch
    bne     a0, s2, bad
    li      a7, 1
    ecall                       // its letter
    li      a7, 8
    ecall
bad:
    li      a0, '?'
    li      a7, 1
    ecall
    li      a7, 8
    ecall

    .balign 4
handler:                        // t0 and t1 are free in what it interrupts, and a0 and a7 while the kernel sleeps
    csrr    t0, scause
    bltz    t0, tick
    li      t1, 13
    bne     t0, t1, bad
    csrr    t0, stval
    bne     t0, s4, bad
    csrr    t0, sepc
    addi    t0, t0, 4
    csrw    sepc, t0
    li      s5, 1
    sret
tick:
    li      a0, -1
    li      a7, 0
    ecall                       // the timer comes no more
    li      s7, 1
    sret

others:                         // the second kernel's
    j       handler

    .org    0x4000              // the first kernel's root table
    .dword  0x80008000 >> 2 | 0x01
    .org    0x8000              // its level 1
    .dword  0x80009000 >> 2 | 0x01
    .org    0x9000              // its level 0; page 0 is the code: V, R, X, U, A
    .dword  0x80001000 >> 2 | 0x5B
    .org    0xC000              // the second kernel's
    .dword  0x80010000 >> 2 | 0x01
    .org    0x10000
    .dword  0x80011000 >> 2 | 0x01
    .org    0x11000
    .dword  0x80001000 >> 2 | 0x5B
