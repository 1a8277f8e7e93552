# Two functions that note their arguments and their stack, and leave the byte 0xEE in 8 KiB of stack and in every
# register that they may change: uint32_t tg18_run_script(...), in the place of the port, whose answer is 0xEEEEEEEE,
# and below it, as its end, void leave_all(void *argument).

    .text
    .globl tg18_run_script
    .type tg18_run_script, @function
    .p2align 4
tg18_run_script:
    lea noted(%rip), %rax
    mov %rdi, (%rax)
    mov %rsi, 8(%rax)
    mov %rdx, 16(%rax)
    mov %rcx, 24(%rax)
    mov %r8, 32(%rax)
    mov %r9, 40(%rax)
    .irp n, 1, 2, 3, 4, 5, 6
    mov 8 * \n(%rsp), %rcx
    mov %rcx, 40 + 8 * \n(%rax)
    .endr
    .globl leave_all
    .type leave_all, @function
leave_all:
    lea noted(%rip), %rax
    mov %rdi, (%rax)
    mov %rsp, 96(%rax)
    sub $8200, %rsp
    mov %rsp, %rdi
    mov $0xEE, %eax
    mov $8192, %ecx
    rep stosb
    call stand_in_called
    add $8200, %rsp
    mov %rax, %rdx
    mov $0xEEEEEEEEEEEEEEEE, %rax
    movq %rax, %xmm0
    punpcklqdq %xmm0, %xmm0
    .irp n, 1, 2, 3, 4, 5, 6, 7, 8, 9, 10, 11, 12, 13, 14, 15
    movaps %xmm0, %xmm\n
    .endr
    cmp $1, %rdx
    jb .Lgeneral
    .irp n, 0, 1, 2, 3, 4, 5, 6, 7, 8, 9, 10, 11, 12, 13, 14, 15
    vinsertf128 $1, %xmm0, %ymm\n, %ymm\n
    .endr
    je .Lgeneral
    .irp n, 0, 1, 2, 3, 4, 5, 6, 7, 8, 9, 10, 11, 12, 13, 14, 15
    vpbroadcastq %rax, %zmm\n
    .endr
    .irp n, 16, 17, 18, 19, 20, 21, 22, 23, 24, 25, 26, 27, 28, 29, 30, 31
    vpbroadcastq %rax, %zmm\n
    .endr
    .irp n, 0, 1, 2, 3, 4, 5, 6, 7
    kmovw %eax, %k\n
    .endr
.Lgeneral:
    .irp n, rcx, rdx, rsi, rdi, r8, r9, r10, r11
    mov %rax, %\n
    .endr
    ret
    .size tg18_run_script, . - tg18_run_script
    .size leave_all, . - leave_all

# uint32_t masks_used(void): all of k0 to k7 in one
    .globl masks_used
    .type masks_used, @function
    .p2align 4
masks_used:
    xor %eax, %eax
    .irp n, 0, 1, 2, 3, 4, 5, 6, 7
    kmovw %k\n, %ecx
    or %ecx, %eax
    .endr
    ret
    .size masks_used, . - masks_used

    .section .note.GNU-stack, "", @progbits
