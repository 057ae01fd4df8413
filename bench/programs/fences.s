# A hypervisor that fences and enters its guest anew every 14 steps. The guest reads a byte, adds it to the checksum,
# and makes a call. A round takes some 100,000 steps.
    .include "nested.s"
    .globl  checksum
checksum:
    li      t0, 7143
    mul     s0, a0, t0
    second_stage s1
    csrw    hgatp, s1
    la      s4, nested
    la      s5, byte
    li      a0, 0
    to_guest
    j       enter

    .balign 4
back:
    addi    s0, s0, -1
    beqz    s0, done
enter:
    .insn   r 0x73, 0, 0x31, zero, zero, zero   # hfence.gvma
    csrw    sepc, s4
    sret

nested:
    lbu     t0, 0(s5)
    add     a0, a0, t0
    .rept   6
    addi    t0, t0, 1
    .endr
    ecall

done:
    ret

    .data
byte:
    .byte   0x41
