/* All of the kernel in one row from 1 MByte on; the page tables come last, in whole frames. */
ENTRY(first_start)
PHDRS
{
    code PT_LOAD FLAGS(5);
    data PT_LOAD FLAGS(6);
    note PT_NOTE FLAGS(4);
}
SECTIONS
{
    . = 1M;
    .note.pvh : { *(.note.pvh) } :code :note
    .text : { *(.text*) } :code
    . = ALIGN(4096);
    .data : { *(.rodata*) *(.data*) } :data
    .bss : { *(COMMON) *(.bss*) }
    .tables : { *(.tables) }
    /DISCARD/ : { *(.comment) *(.eh_frame*) *(.note.gnu*) }
}
