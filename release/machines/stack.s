# What LLVM calls on Windows in a function that has more than a page of variables: it touches each page below the stack pointer, by the
# number of bytes in rax, and changes no register. The second name is that of a probe which LLVM writes in place on other systems: on
# Windows it calls it.
    .globl ___chkstk_ms
    .globl "inline-asm"
___chkstk_ms:
"inline-asm":
    pushq %rcx
    pushq %rax
    leaq 24(%rsp), %rcx
    cmpq $0x1000, %rax
    jb 2f
1:  subq $0x1000, %rcx
    orq $0, (%rcx)
    subq $0x1000, %rax
    cmpq $0x1000, %rax
    ja 1b
2:  subq %rax, %rcx
    orq $0, (%rcx)
    popq %rax
    popq %rcx
    ret
