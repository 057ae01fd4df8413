# A trap handler for a guest that does nothing you can see. It prints all registers in hexadecimal, 54 lines of 27 bytes
# each, and a last line `exit 255`, which `nesthv-run --verdict` ends with, and stops the guest. Link it to your guest,
# and set stvec before anything else:
#
#     la      t0, show_trap
#     csrw    stvec, t0
#
# It needs no stack. It does not return, so it may use sscratch and htimedelta, which it does not print. Under page
# tables of the guest it needs its first page, executable and at its own address; then it turns them off.
    .globl show_trap
    .text
    .balign 4
show_trap:
    csrw    htimedelta, t0
    csrrw   t0, satp, zero
    csrw    sscratch, t0
    la      t0, saved
    .irp    n, 1,2,3,4,6,7,8,9,10,11,12,13,14,15,16,17,18,19,20,21,22,23,24,25,26,27,28,29,30,31
    sd      x\n, 8 * (\n - 1)(t0)
    .endr
    csrr    t1, htimedelta
    sd      t1, 32(t0)
    addi    t0, t0, 248
    .irp    name, sepc,scause,stval,sstatus,sie,sip,sscratch,time,htval,htinst,hstatus,hedeleg,hideleg,hgatp,hie,hvip
    csrr    t1, \name
    sd      t1, 0(t0)
    addi    t0, t0, 8
    .endr
    .irp    name, vsstatus,vstvec,vsscratch,vsepc,vscause,vstval,vsatp
    csrr    t1, \name
    sd      t1, 0(t0)
    addi    t0, t0, 8
    .endr

    la      s0, names
    la      s1, saved
    la      s2, names_end
    li      a7, 1               # call 1 puts the byte in a0 on the console
line:
    addi    s3, s0, 10
letter:
    lbu     a0, 0(s0)
    ecall
    addi    s0, s0, 1
    bltu    s0, s3, letter
    ld      s4, 0(s1)
    addi    s1, s1, 8
    li      s3, 64
    li      s5, 10
digit:
    addi    s3, s3, -4
    srl     a0, s4, s3
    andi    a0, a0, 15
    bltu    a0, s5, small
    addi    a0, a0, 'A' - '0' - 10
small:
    addi    a0, a0, '0'
    ecall
    bnez    s3, digit
    li      a0, '\n'
    ecall
    bltu    s0, s2, line
    addi    s3, s0, 9           # behind the names
verdict:
    lbu     a0, 0(s0)
    ecall
    addi    s0, s0, 1
    bltu    s0, s3, verdict
    li      a7, 8               # call 8 stops the guest
    ecall

names:
    .ascii  "x1  ra    x2  sp    x3  gp    x4  tp    x5  t0    x6  t1    x7  t2    x8  s0    x9  s1    "
    .ascii  "x10 a0    x11 a1    x12 a2    x13 a3    x14 a4    x15 a5    x16 a6    x17 a7    x18 s2    "
    .ascii  "x19 s3    x20 s4    x21 s5    x22 s6    x23 s7    x24 s8    x25 s9    x26 s10   x27 s11   "
    .ascii  "x28 t3    x29 t4    x30 t5    x31 t6    sepc      scause    stval     sstatus   sie       "
    .ascii  "sip       satp      time      htval     htinst    hstatus   hedeleg   hideleg   hgatp     "
    .ascii  "hie       hvip      vsstatus  vstvec    vsscratch vsepc     vscause   vstval    vsatp     "
names_end:
    .ascii  "exit 255\n\0\0\0"   # as long as whole words, as `.balign` wants it
    .balign 8
saved:                          # x1 to x31, and then the others, in the order of the names
    .zero   8 * 54
