# uint32_t called(function *run, const uintptr_t *arguments, uint8_t *registers, enum tg18_vectors vectors)
# Calls a function with twelve arguments, of which it may take fewer, and stores directly afterwards the sixteen
# general registers, 8 bytes each, and behind them the vector registers, 64 bytes each, as many of those as there are.
# The call is made 128 KiB below the caller's frame, so that what it leaves on the stack is still there when the search
# is made, whose own frames lie above.

    .text
    .globl called
    .type called, @function
    .p2align 4
called:
    push %rbp
    mov %rsp, %rbp
    push %rdx
    push %rcx
    sub $131072, %rsp
    mov %rdi, %r11
    mov %rsi, %rax
    pushq 88(%rax)
    pushq 80(%rax)
    pushq 72(%rax)
    pushq 64(%rax)
    pushq 56(%rax)
    pushq 48(%rax)
    mov 40(%rax), %r9
    mov 32(%rax), %r8
    mov 24(%rax), %rcx
    mov 16(%rax), %rdx
    mov 8(%rax), %rsi
    mov (%rax), %rdi
    call *%r11
    push %rcx
    mov -8(%rbp), %rcx
    mov %rax, (%rcx)
    popq 8(%rcx)
    mov %rdx, 16(%rcx)
    mov %rbx, 24(%rcx)
    mov %rsp, 32(%rcx)
    mov %rbp, 40(%rcx)
    mov %rsi, 48(%rcx)
    mov %rdi, 56(%rcx)
    mov %r8, 64(%rcx)
    mov %r9, 72(%rcx)
    mov %r10, 80(%rcx)
    mov %r11, 88(%rcx)
    mov %r12, 96(%rcx)
    mov %r13, 104(%rcx)
    mov %r14, 112(%rcx)
    mov %r15, 120(%rcx)
    .irp n, 0, 1, 2, 3, 4, 5, 6, 7, 8, 9, 10, 11, 12, 13, 14, 15
    movups %xmm\n, 128 + 64 * \n(%rcx)
    .endr
    cmpq $1, -16(%rbp)
    jb .Ldone
    .irp n, 0, 1, 2, 3, 4, 5, 6, 7, 8, 9, 10, 11, 12, 13, 14, 15
    vmovups %ymm\n, 128 + 64 * \n(%rcx)
    .endr
    je .Ldone
    .irp n, 0, 1, 2, 3, 4, 5, 6, 7, 8, 9, 10, 11, 12, 13, 14, 15
    vmovups %zmm\n, 128 + 64 * \n(%rcx)
    .endr
    .irp n, 16, 17, 18, 19, 20, 21, 22, 23, 24, 25, 26, 27, 28, 29, 30, 31
    vmovups %zmm\n, 128 + 64 * \n(%rcx)
    .endr
.Ldone:
    mov %rbp, %rsp
    pop %rbp
    ret
    .size called, . - called

    .section .note.GNU-stack, "", @progbits
