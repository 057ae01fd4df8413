# Jumps, 62 of each 64 steps; the other two count. A round takes 1,000,000 steps.
    .globl  checksum
checksum:
    li      t0, 15625
    mul     t0, a0, t0
loop:
    .rept   62
    j       . + 4
    .endr
    addi    t0, t0, -1
    bnez    t0, loop
    ret
