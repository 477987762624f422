/* The image stands at 1 MiB. The library's code is apart, so that the kernel can tell which of its instructions it interrupted. */
OUTPUT_FORMAT(elf64-x86-64)
ENTRY(start)

PHDRS
{
    text PT_LOAD FLAGS(5);
    data PT_LOAD FLAGS(6);
    note PT_NOTE FLAGS(4);
}

SECTIONS
{
    . = 1M;
    .note.pvh : { KEEP(*(.note.pvh)) } :text :note
    .text : { boot.o(.text .text.*) kernel_c.o(.text .text.*) } :text
    .library : {
        library_begin = .;
        *(.text .text.*)
        library_end = .;
    } :text
    .rodata : { *(.rodata .rodata.*) } :text
    .data : ALIGN(4096) { *(.data .data.* .got .got.* .tdata .tdata.*) } :data
    .bss : { *(.bss .bss.* COMMON) } :data
    /DISCARD/ : { *(.eh_frame .eh_frame_hdr .gcc_except_table .gcc_except_table.* .comment .note.gnu.* .note.GNU-stack) }
}
