# Brings up both processors: from the 32-bit mode in which the first one is started (PVH), and from the 16-bit mode in
# which the second one starts, to 64-bit mode with paging, and then to first_processor and second_processor in kernel.c.

# Bits of an entry: present, writes allowed, and accessed and dirty, which are set here so that no processor sets them.
# Besides: no caching, and a large page.
.set ENTRY, 0x63
.set UNCACHED, 0x10
.set LARGE, 0x80

# The selectors of the segments below, and the page below 1 MByte to which the second processor's first code is copied.
.set CODE64, 0x08
.set CODE32, 0x10
.set DATA, 0x18
.set LOW_PAGE, 0x8000

# Tells the loader the address of the 32-bit entry.
    .section .note.pvh, "a", @note
    .long 4, 4, 18
    .asciz "Xen"
    .long first_start

    .text
    .code32
    .global first_start
first_start:
    cli
    lgdt segments_pointer
    ljmp $CODE32, $1f
1:  mov $first_stack_end, %esp
    mov $first_processor, %edi
    jmp enable_paging

# Copied to LOW_PAGE, where the second processor begins in 16-bit mode. Its addresses are those of the copy.
    .code16
    .global second_start, second_start_end
second_start:
    cli
    mov %cs, %ax
    mov %ax, %ds
    lgdtl low_pointer - second_start
    mov $1, %eax
    mov %eax, %cr0
    ljmpl $CODE32, $1f
low_pointer:
    .word segments_end - segments - 1
    .long segments
second_start_end:

    .code32
1:  mov $second_stack_end, %esp
    mov $second_processor, %edi

# The stack is in ESP, and the function to go on with in EDI.
enable_paging:
    mov $DATA, %eax
    mov %eax, %ds
    mov %eax, %es
    mov %eax, %ss
    # PAE.
    mov $0x20, %eax
    mov %eax, %cr4
    mov $top_table, %eax
    mov %eax, %cr3
    # LME and NXE of EFER.
    mov $0xC0000080, %ecx
    rdmsr
    or $0x900, %eax
    wrmsr
    # PG, WP and PE.
    mov $0x80010001, %eax
    mov %eax, %cr0
    ljmp $CODE64, $1f
    .code64
1:  mov %edi, %edi
    call *%rdi
2:  hlt
    jmp 2b

# The second processor gets here by the first one's interrupt.
    .global interrupt_entry
interrupt_entry:
    push %rax
    push %rcx
    push %rdx
    push %rsi
    push %rdi
    push %r8
    push %r9
    push %r10
    push %r11
    call interrupted
    pop %r11
    pop %r10
    pop %r9
    pop %r8
    pop %rdi
    pop %rsi
    pop %rdx
    pop %rcx
    pop %rax
    iretq

    .data
    .balign 8
segments:
    .quad 0
    .quad 0x00AF9B000000FFFF
    .quad 0x00CF9B000000FFFF
    .quad 0x00CF93000000FFFF
segments_end:
segments_pointer:
    .word segments_end - segments - 1
    .long segments

# The page tables of both processors. They map the lowest 2 MBytes, where this program is, and the local APIC to
# themselves, and the page at 4 MBytes to shared_frame.
    .section .tables, "aw"
    .balign 4096
top_table:
    .quad pointer_table + ENTRY
    .fill 511, 8, 0
pointer_table:
    .quad low_directory + ENTRY
    .fill 2, 8, 0
    .quad apic_directory + ENTRY
    .fill 508, 8, 0
low_directory:
    .quad ENTRY + LARGE
    .quad 0
    .quad page_table + ENTRY
    .fill 509, 8, 0
apic_directory:
    .fill 503, 8, 0
    .quad 0xFEE00000 + ENTRY + LARGE + UNCACHED
    .fill 8, 8, 0
    .global page_table
page_table:
    .quad shared_frame + ENTRY
    .fill 511, 8, 0
shared_frame:
    .fill 512, 8, 0

    .bss
    .balign 16
    .skip 4096
first_stack_end:
    .skip 4096
second_stack_end:

    .section .note.GNU-stack, "", @progbits
