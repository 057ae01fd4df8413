# One jump to itself.
    .globl  _start
_start:
    j       _start
