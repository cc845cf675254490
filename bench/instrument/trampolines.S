# The calls that instrument puts before accesses to memory: mem_r8 and so on hand address, width, kind (0 read, 1 write, 2 atomic) and the
# place of the access to `hook`, in C, and change neither a register nor a flag. With ASAN only accesses that the shadow memory of
# AddressSanitizer (which begins at 0x7fff8000 on x86-64 Linux) does not allow as they are go there.
.macro SAVE
    pushq %rax
    pushq %rcx
    pushq %rdx
    pushq %rbx
    pushq %rbp
    pushq %rsi
    pushq %r8
    pushq %r9
    pushq %r10
    pushq %r11
    movq %rsp, %rbp
    andq $-16, %rsp
    subq $256, %rsp
    movups %xmm0, (%rsp)
    movups %xmm1, 16(%rsp)
    movups %xmm2, 32(%rsp)
    movups %xmm3, 48(%rsp)
    movups %xmm4, 64(%rsp)
    movups %xmm5, 80(%rsp)
    movups %xmm6, 96(%rsp)
    movups %xmm7, 112(%rsp)
    movups %xmm8, 128(%rsp)
    movups %xmm9, 144(%rsp)
    movups %xmm10, 160(%rsp)
    movups %xmm11, 176(%rsp)
    movups %xmm12, 192(%rsp)
    movups %xmm13, 208(%rsp)
    movups %xmm14, 224(%rsp)
    movups %xmm15, 240(%rsp)
.endm
.macro RESTORE
    movups (%rsp), %xmm0
    movups 16(%rsp), %xmm1
    movups 32(%rsp), %xmm2
    movups 48(%rsp), %xmm3
    movups 64(%rsp), %xmm4
    movups 80(%rsp), %xmm5
    movups 96(%rsp), %xmm6
    movups 112(%rsp), %xmm7
    movups 128(%rsp), %xmm8
    movups 144(%rsp), %xmm9
    movups 160(%rsp), %xmm10
    movups 176(%rsp), %xmm11
    movups 192(%rsp), %xmm12
    movups 208(%rsp), %xmm13
    movups 224(%rsp), %xmm14
    movups 240(%rsp), %xmm15
    movq %rbp, %rsp
    popq %r11
    popq %r10
    popq %r9
    popq %r8
    popq %rsi
    popq %rbp
    popq %rbx
    popq %rdx
    popq %rcx
    popq %rax
.endm
.macro HOOK name, size, kind
    .globl \name
    .type \name,@function
\name:
    pushfq
#ifdef ASAN
    pushq %rax
    leaq \size-1(%rdi), %rax
    shrq $3, %rax
    cmpb $0, 0x7fff8000(%rax)
    jne 1f
    movq %rdi, %rax
    shrq $3, %rax
    cmpb $0, 0x7fff8000(%rax)
    jne 1f
    popq %rax
    popfq
    ret
1:  popq %rax
#endif
    SAVE
    cld
    movq 88(%rbp), %rcx
    movl $\size, %esi
    movl $\kind, %edx
    call hook
    RESTORE
    popfq
    ret
.endm
    .text
HOOK mem_r1, 1, 0
HOOK mem_r2, 2, 0
HOOK mem_r4, 4, 0
HOOK mem_r8, 8, 0
HOOK mem_r16, 16, 0
HOOK mem_w1, 1, 1
HOOK mem_w2, 2, 1
HOOK mem_w4, 4, 1
HOOK mem_w8, 8, 1
HOOK mem_w16, 16, 1
HOOK mem_a8, 8, 2
    .section .note.GNU-stack,"",@progbits
