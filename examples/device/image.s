# The image of the guest of hypervisor.c.
    .section .rodata
    .globl  image, image_end
image:
    .incbin "device.bin"
image_end:
