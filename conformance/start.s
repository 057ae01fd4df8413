# What each image begins with: its parameters, which conformance/run fills in, the way into a mode and back,
# and the pages from which a case's instruction is fetched.
    .option norelax
    .equ    SAVED, 13 * 8
    .section .text.start
    .globl  _start, parameters, enter, trap, back, vectors
    .globl  stub_supervisor, stub_user, stub_hypervisor, guest_vectors
_start:
    j       start
    nop
    .dword  start               # where a shim in M goes
parameters:
    .dword  1                   # the seed
    .dword  0                   # the number of the first case
    .dword  16                  # how many cases
    .dword  0                   # cases a sum; 0: a line a case
    .dword  1 << 8              # a bit for each MODE of translation that cases may have
start:
    la      sp, stack_top
    call    main
    li      a7, 8
    ecall

# enter: goes by SRET to hart.pc with a0, a1 and a2 of hart, and comes back at the next trap into HS, or at
# `back`. A case's instruction changes no other register than a0 to a2.
enter:
    addi    sp, sp, -SAVED
    sd      ra, 0(sp)
    .irp    number, 0, 1, 2, 3, 4, 5, 6, 7, 8, 9, 10, 11
    sd      s\number, 8 + 8 * \number(sp)
    .endr
    la      t0, hart
    sd      sp, 0(t0)
    ld      a0, 8(t0)
    ld      a1, 16(t0)
    ld      a2, 24(t0)
    la      t5, back
    sret

    .balign 4
trap:                           # traps into HS
    la      t0, hart
    li      t1, 1
    j       left
    .balign 4
back:                           # where a case in HS goes after its instruction
    la      t0, hart
    li      t1, 0
left:
    sd      t1, 32(t0)
    sd      a0, 8(t0)
    sd      a1, 16(t0)
    sd      a2, 24(t0)
    ld      sp, 0(t0)
    ld      ra, 0(sp)
    .irp    number, 0, 1, 2, 3, 4, 5, 6, 7, 8, 9, 10, 11
    ld      s\number, 8 + 8 * \number(sp)
    .endr
    addi    sp, sp, SAVED
    ret

    .balign 256
vectors:                        # the traps of each code into HS, where stvec is vectored
    .rept   16
    jal     t1, vectored
    .endr
vectored:                       # t1: behind the entry
    la      t0, vectors
    sub     t1, t1, t0
    srli    t1, t1, 2
    la      t0, hart
    j       left

# Each has a place for the instruction of a case. Behind it the case ends: by ECALL, or in HS by a jump to
# `back`. At stub_supervisor + 16 is where traps into VS go, and at `guest_vectors` where vstvec is vectored.
# Several instructions stand at 0x100 of each.
    .section .stubs, "awx"
    .balign 4096
stub_supervisor:
    nop
    ecall
    nop
    nop
    ecall
    .balign 1024
guest_vectors:
    .rept   16
    ecall
    .endr
    .balign 4096
stub_user:
    nop
    ecall
    .balign 4096
stub_hypervisor:
    nop
    jr      t5
    .balign 4096
