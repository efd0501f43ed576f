/* What code for Windows calls in a function whose locals take more than a page: it touches each page of rax bytes
 * below the stack pointer, from the nearest on, so that Windows adds them to the stack, and changes no register. The
 * name is the archive's own, so that it links by MSVC too, whose C library has ___chkstk_ms under another name, and
 * beside Rust's library, which brings that name itself. */
        .intel_syntax noprefix
        .text
        .globl  pe_c_probe_stack
pe_c_probe_stack:
        push    rcx
        push    rax
        lea     rcx, [rsp + 24]
1:      cmp     rax, 0x1000
        jb      2f
        sub     rcx, 0x1000
        test    [rcx], cl
        sub     rax, 0x1000
        jmp     1b
2:      sub     rcx, rax
        test    [rcx], cl
        pop     rax
        pop     rcx
        ret
