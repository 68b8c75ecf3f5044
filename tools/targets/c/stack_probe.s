# Before a function takes a frame of a page or more, whose size is in rax, it touches each page of it
# in turn, as Windows asks: the guard page follows. All registers are kept.
        .text
        .globl  ___chkstk_ms
        .def    ___chkstk_ms
        .scl    2
        .type   32
        .endef
        .seh_proc ___chkstk_ms
___chkstk_ms:
        pushq   %rcx
        .seh_pushreg %rcx
        pushq   %rax
        .seh_pushreg %rax
        .seh_endprologue
        # Past the two registers and the address to return to.
        leaq    24(%rsp), %rcx
.next_page:
        cmpq    $4096, %rax
        jb      .last_page
        subq    $4096, %rcx
        orq     $0, (%rcx)
        subq    $4096, %rax
        jmp     .next_page
.last_page:
        subq    %rax, %rcx
        orq     $0, (%rcx)
        popq    %rax
        popq    %rcx
        retq
        .seh_endproc
