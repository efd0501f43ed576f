# Functions whose prologs are exactly these, for tools/try_dumps.
    .text
    .globl trap_in_prolog, trap_in_prolog_with_frame_register, call_at_the_end

    .seh_proc trap_in_prolog
trap_in_prolog:
    pushq %rbx
    .seh_pushreg %rbx
    pushq %r12
    .seh_pushreg %r12
    movq $7, %rbx
    ud2
    pushq %rdi
    .seh_pushreg %rdi
    subq $0x40, %rsp
    .seh_stackalloc 0x40
    .seh_endprologue
    addq $0x40, %rsp
    popq %rdi
    popq %r12
    popq %rbx
    ret
    .seh_endproc

# The frame register is set and one of two floats saved, and the stack pointer has moved once more.
    .seh_proc trap_in_prolog_with_frame_register
trap_in_prolog_with_frame_register:
    pushq %rbp
    .seh_pushreg %rbp
    pushq %rsi
    .seh_pushreg %rsi
    subq $0x88, %rsp
    .seh_stackalloc 0x88
    leaq 0x40(%rsp), %rbp
    .seh_setframe %rbp, 0x40
    movaps %xmm6, 0x10(%rbp)
    .seh_savexmm %xmm6, 0x50
    xorps %xmm6, %xmm6
    xorl %esi, %esi
    subq $0x200, %rsp
    movaps %xmm9, 0x20(%rbp)
    ud2
    .seh_savexmm %xmm9, 0x60
    .seh_endprologue
    xorps %xmm9, %xmm9
    leaq 0x48(%rbp), %rsp
    popq %rsi
    popq %rbp
    ret
    .seh_endproc

# The return address is that of the next function, whose frame is another.
    .seh_proc call_at_the_end
call_at_the_end:
    pushq %rsi
    .seh_pushreg %rsi
    subq $0x20, %rsp
    .seh_stackalloc 0x20
    .seh_endprologue
    movq %rcx, %rax
    movq %rdx, %rcx
    call *%rax
    .seh_endproc
    .seh_proc next_function
next_function:
    pushq %rdi
    .seh_pushreg %rdi
    subq $0x180, %rsp
    .seh_stackalloc 0x180
    .seh_endprologue
    addq $0x180, %rsp
    popq %rdi
    ret
    .seh_endproc
