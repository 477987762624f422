/*
 * The first instructions of the machine, and the entries of its interrupts.
 *
 * By PVH it begins in 32-bit protected mode without paging, with the start information at %ebx. The first 4 GiB are mapped one to
 * one, the SSE state is switched on, and kernel_main is called in long mode.
 */
    .section .note.pvh, "a", @note
    .align 4
    .long 4, 8, 18              /* lengths of name and description; XEN_ELFNOTE_PHYS32_ENTRY */
    .asciz "Xen"
    .quad start

    .section .bss
    .align 4096
pages_4: .skip 4096
pages_3: .skip 4096
pages_2: .skip 4 * 4096
    .align 16
    .skip 65536
stack_top:

    .section .data
    .align 16
    .globl segments
segments:
    .quad 0
    .quad 0x00af9a000000ffff    /* 0x08: 64-bit code */
    .quad 0x00cf92000000ffff    /* 0x10: data */
    .quad 0, 0                  /* 0x18: the task segment, which machine.c fills in */
segments_register:
    .word . - segments - 1
    .quad segments

    .text
    .code32
    .globl start
start:
    cli
    cld
    mov $stack_top, %esp
    mov $pages_2, %edi          /* 2048 pages of 2 MiB */
    mov $0x83, %eax
1:  mov %eax, (%edi)
    add $8, %edi
    add $0x200000, %eax
    cmp $pages_2 + 4 * 4096, %edi
    jb 1b
    mov $pages_2 + 3, %eax
    mov $pages_3, %edi
    mov $4, %ecx
2:  mov %eax, (%edi)
    add $8, %edi
    add $4096, %eax
    loop 2b
    movl $pages_3 + 3, pages_4
    mov $pages_4, %eax
    mov %eax, %cr3
    mov $0x620, %eax            /* physical address extension; FXSAVE and exceptions of SSE */
    mov %eax, %cr4
    mov $0xc0000080, %ecx       /* long mode */
    rdmsr
    or $0x100, %eax
    wrmsr
    mov $0x80000003, %eax       /* paging, protection, and a coprocessor that is there */
    mov %eax, %cr0
    lgdt segments_register
    ljmp $0x08, $in_long_mode

    .code64
in_long_mode:
    mov $0x10, %eax
    mov %eax, %ds
    mov %eax, %es
    mov %eax, %ss
    mov $stack_top, %rsp
    mov %ebx, %edi
    xor %ebp, %ebp
    call kernel_main
    ud2

/*
 * An interrupt's entry: all registers are saved, those of SSE by FXSAVE, since the library uses them. The processor has switched
 * to a stack of the interrupt's own (IST), so that nothing below the interrupted stack pointer is touched.
 */
    .macro entry name, handler
    .globl \name
\name:
    push %rax
    push %rcx
    push %rdx
    push %rbx
    push %rbp
    push %rsi
    push %rdi
    push %r8
    push %r9
    push %r10
    push %r11
    push %r12
    push %r13
    push %r14
    push %r15
    cld
    lea 120(%rsp), %rdi         /* what the processor has pushed: struct interrupted */
    mov %rsp, %rbp
    sub $512, %rsp
    and $-16, %rsp
    fxsave64 (%rsp)
    call \handler
    fxrstor64 (%rsp)
    mov %rbp, %rsp
    pop %r15
    pop %r14
    pop %r13
    pop %r12
    pop %r11
    pop %r10
    pop %r9
    pop %r8
    pop %rdi
    pop %rsi
    pop %rbp
    pop %rbx
    pop %rdx
    pop %rcx
    pop %rax
    iretq
    .endm

    entry timer_entry, timer_interrupt
    entry step_entry, step_interrupt

    .globl spurious_entry
spurious_entry:
    iretq

/* The faults: vector and error code are pushed, and the machine ends. */
    .align 16
    .globl fault_entries
fault_entries:
    .irp vector, 0, 1, 2, 3, 4, 5, 6, 7, 8, 9, 10, 11, 12, 13, 14, 15, 16, 17, 18, 19, 20, 21, 22, 23, 24, 25, 26, 27, 28, 29, 30, 31
    .if 1 << \vector & 0x60227d00 == 0     /* those with no code of their own */
    push $0
    .endif
    push $\vector
    jmp faulted
    .align 16
    .endr
faulted:
    pop %rdi
    pop %rsi
    mov (%rsp), %rdx
    mov %cr2, %rcx
    and $-16, %rsp
    call machine_fault
    ud2

/*
 * uint32_t call_on(void *top, const void *call, const uint64_t arguments[7]): makes a call of seven arguments on the stack that
 * ends at `top`, a multiple of 16. Its return address is the word below 16 bytes under the top.
 */
    .globl call_on
call_on:
    push %rbp
    mov %rsp, %rbp
    mov %rdi, %rsp
    mov %rsi, %rax
    mov %rdx, %r11
    sub $8, %rsp
    push 48(%r11)
    mov 0(%r11), %rdi
    mov 8(%r11), %rsi
    mov 16(%r11), %rdx
    mov 24(%r11), %rcx
    mov 32(%r11), %r8
    mov 40(%r11), %r9
    call *%rax
    mov %rbp, %rsp
    pop %rbp
    ret

    .section .note.GNU-stack, "", @progbits
