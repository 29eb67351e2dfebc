/* Where a guest made with the GNU tools lies in memory: three segments, none of them both written and run. Each begins
   on a later page than the one before it ends on, as far into its page as it stands in the file, so that the file has
   no gaps. */
ENTRY(_start)
PHDRS
{
    code PT_LOAD FLAGS(5);          /* read and run */
    constants PT_LOAD FLAGS(4);     /* read */
    variables PT_LOAD FLAGS(6);     /* read and written */
}
SECTIONS
{
    . = 0x10000 + SIZEOF_HEADERS;
    .text : { *(.text .text.*) } :code
    . += 4096;
    .rodata : { *(.rodata .rodata.* .srodata .srodata.*) } :constants
    . += 4096;
    .data : { *(.data .data.* .sdata .sdata.*) } :variables
    .bss : { *(.bss .bss.* .sbss .sbss.* COMMON) } :variables
    /DISCARD/ : { *(.ARM.* .riscv.* .comment .note.*) }
}
