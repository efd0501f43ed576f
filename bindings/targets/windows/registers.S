/* uint32_t call_with_known_registers(call, count, words, result): calls with `count` words as arguments, and stores
 * what the call returned. What is returned has bit N where the call changed the register N: rbx, rbp, rsi, rdi, r12
 * to r15, xmm6 to xmm15.
 * https://learn.microsoft.com/cpp/build/x64-software-conventions#register-volatility-and-preservation */
        .intel_syntax noprefix
        .text

        .set known, 0x1234567800000000
        /* from rsp: 16 words of arguments, ten registers of 16 bytes, and the address of the result */
        .set saved, 16 * 8
        .set result, saved + 10 * 16
        .set size, result + 8

        .macro for_general what
        \what rbx, 0
        \what rbp, 1
        \what rsi, 2
        \what rdi, 3
        \what r12, 4
        \what r13, 5
        \what r14, 6
        \what r15, 7
        .endm

        .macro for_xmm what
        \what 6, 8
        \what 7, 9
        \what 8, 10
        \what 9, 11
        \what 10, 12
        \what 11, 13
        \what 12, 14
        \what 13, 15
        \what 14, 16
        \what 15, 17
        .endm

        .macro save number, index
        movups  [rsp + saved + (\index - 8) * 16], xmm\number
        .endm

        .macro restore number, index
        movups  xmm\number, [rsp + saved + (\index - 8) * 16]
        .endm

        .macro fill register, index
        movabs  \register, known + \index
        .endm

        .macro fill_xmm number, index
        movabs  rax, known + \index
        movq    xmm\number, rax
        punpcklqdq xmm\number, xmm\number
        .endm

        /* sets the bit where r11 is not what was filled in */
        .macro compare index
        movabs  r10, known + \index
        xor     eax, eax
        cmp     r11, r10
        setne   al
        shl     eax, \index
        or      ecx, eax
        .endm

        .macro test_one register, index
        mov     r11, \register
        compare \index
        .endm

        .macro test_xmm number, index
        movq    r11, xmm\number
        compare \index
        psrldq  xmm\number, 8
        movq    r11, xmm\number
        compare \index
        .endm

        .globl  call_with_known_registers
call_with_known_registers:
        push    rbx
        push    rbp
        push    rsi
        push    rdi
        push    r12
        push    r13
        push    r14
        push    r15
        sub     rsp, size
        for_xmm save
        mov     [rsp + result], r9
        mov     r10, rcx
        /* the arguments after the fourth stand after the 32 bytes that a callee may use */
        mov     eax, 4
1:      cmp     rax, rdx
        jae     2f
        mov     r11, [r8 + 8 * rax]
        mov     [rsp + 8 * rax], r11
        inc     rax
        jmp     1b
2:      for_general fill
        for_xmm fill_xmm
        mov     rcx, [r8]
        mov     rdx, [r8 + 8]
        mov     r9, [r8 + 24]
        mov     r8, [r8 + 16]
        call    r10
        mov     r11, [rsp + result]
        mov     [r11], rax
        xor     ecx, ecx
        for_general test_one
        for_xmm test_xmm
        mov     eax, ecx
        for_xmm restore
        add     rsp, size
        pop     r15
        pop     r14
        pop     r13
        pop     r12
        pop     rdi
        pop     rsi
        pop     rbp
        pop     rbx
        ret

        /* what the test of this test calls */
        .globl  changes_nothing, changes_rsi, changes_r15, changes_xmm6, changes_high_xmm15
changes_rsi:
        inc     rsi
changes_nothing:
        ret
changes_r15:
        xor     r15, r15
        ret
changes_xmm6:
        pxor    xmm6, xmm6
        ret
changes_high_xmm15:
        movq    xmm15, xmm15
        ret
