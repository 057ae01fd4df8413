# A kernel that sleeps until the timer or an input wakes it. It puts a dot at each tick of the timer, echoes each input,
# and stops after the third tick.
    .globl _start
    .equ STI, 0x20              # the timer interrupt, code 5, in sie
    .equ SEI, 0x200             # the external interrupt, code 9, in sie: an input has come
    .equ TICK, 1000             # from one tick to the next, by the clock

_start:
    la      t0, vectors + 1     # mode 1: interrupt 5 goes to vectors + 20, interrupt 9 to vectors + 36
    csrw    stvec, t0
    li      s0, 3               # ticks to come
    li      s1, TICK            # the next one
    mv      a0, s1
    li      a7, 0               # call 0 sets the timer to a0
    ecall
    li      t0, STI | SEI
    csrw    sie, t0
    csrsi   sstatus, 2          # SIE: an interrupt is taken as soon as it is there
sleep:
    wfi                         # the clock goes on to the next tick or input
    bgtz    s0, sleep           # a tick between this and WFI is one that it sleeps past; the next one ends it
stop:
    li      a7, 8               # call 8 stops the guest
    ecall

    .balign 4
vectors:
    j       stop                # an exception: there is none
    .space  16
    j       tick                # vectors + 20
    .space  12
input:                          # vectors + 36
    li      a7, 2               # call 2 reads an input, or gives -1 if none has come
    ecall
    bltz    a0, back
    li      a7, 1               # call 1 puts the byte in a0
    ecall
    j       input
tick:
    li      a7, 1
    li      a0, '.'
    ecall
    addi    s0, s0, -1
    addi    s1, s1, TICK
    mv      a0, s1
    li      a7, 0
    ecall                       # the timer is ahead again, so its interrupt is not pending any more
back:
    sret
