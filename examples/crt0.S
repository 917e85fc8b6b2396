# Where a guest begins, and its three system calls: read 63, write 64, exit 93.

    .section .text.start, "ax"
    .globl _start
    .type _start, @function
_start:
    .option push
    .option norelax
    la      gp, __global_pointer$
    .option pop
    lw      a0, 0(sp)               # argc
    addi    a1, sp, 4               # argv
    call    main
    li      a7, 93                  # exit with what main returned
    ecall
    .size _start, . - _start

    .text
    .globl sys_read
    .type sys_read, @function
sys_read:                           # read(0, bytes, size)
    mv      a2, a1
    mv      a1, a0
    li      a0, 0
    li      a7, 63
    ecall
    ret
    .size sys_read, . - sys_read

    .globl sys_write
    .type sys_write, @function
sys_write:                          # write(1, bytes, size)
    mv      a2, a1
    mv      a1, a0
    li      a0, 1
    li      a7, 64
    ecall
    ret
    .size sys_write, . - sys_write
