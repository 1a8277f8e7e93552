# Two functions of host/scrubbed.h.

    .text

# void tg18_call_on(void (*work)(void *argument), void *argument, void *top, enum tg18_vectors vectors)
# The new stack is a multiple of 16 at the call, as it has to be. rbp holds the way back; like the others that a callee
# keeps it comes back from the call as it was, so only those that a callee may change are cleared.
    .globl tg18_call_on
    .type tg18_call_on, @function
    .p2align 4
tg18_call_on:
    .cfi_startproc
    push %rbp
    .cfi_def_cfa_offset 16
    .cfi_offset %rbp, -16
    mov %rsp, %rbp
    .cfi_def_cfa_register %rbp
    push %rcx
    mov %rdi, %rax
    mov %rsi, %rdi
    mov %rdx, %rsp
    call *%rax
    mov -8(%rbp), %rcx
    mov %rbp, %rsp
    cmp $1, %ecx
    jb .Lxmm
    vzeroall
    je .Lgeneral
    # The C library's copying uses zmm16 and above where it can.
    .irp n, 16, 17, 18, 19, 20, 21, 22, 23, 24, 25, 26, 27, 28, 29, 30, 31
    vpxorq %zmm\n, %zmm\n, %zmm\n
    .endr
    .irp n, 0, 1, 2, 3, 4, 5, 6, 7
    kxorw %k\n, %k\n, %k\n
    .endr
    jmp .Lgeneral
.Lxmm:
    .irp n, 0, 1, 2, 3, 4, 5, 6, 7, 8, 9, 10, 11, 12, 13, 14, 15
    xorps %xmm\n, %xmm\n
    .endr
.Lgeneral:
    # x87 and MMX are left: floats of the port are in xmm registers, and the C library's copying uses no others.
    xor %eax, %eax
    xor %ecx, %ecx
    xor %edx, %edx
    xor %esi, %esi
    xor %edi, %edi
    xor %r8d, %r8d
    xor %r9d, %r9d
    xor %r10d, %r10d
    xor %r11d, %r11d
    pop %rbp
    .cfi_def_cfa %rsp, 8
    ret
    .cfi_endproc
    .size tg18_call_on, . - tg18_call_on

# void tg18_clear(void *from, size_t bytes)
    .globl tg18_clear
    .type tg18_clear, @function
    .p2align 4
tg18_clear:
    .cfi_startproc
    mov %rsi, %rcx
    xor %eax, %eax
    cld
    rep stosb
    ret
    .cfi_endproc
    .size tg18_clear, . - tg18_clear

    .section .note.GNU-stack, "", @progbits
