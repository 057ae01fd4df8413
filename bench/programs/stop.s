# Does nothing but what each image does: bench/compare.sh takes its time from that of the others.
    .globl  checksum
checksum:
    ret
