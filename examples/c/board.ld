/* Code from 0x100, where every core begins; the stacks end at the first MiB, so `--ram 1` has room for all. */
ENTRY(_start)

PHDRS
{
    code PT_LOAD FLAGS(5);
    data PT_LOAD FLAGS(6);
}

SECTIONS
{
    . = 0x100;
    .vectors : { *(.vectors) } :code
    . = 0x1000;
    .text : { *(.text .text.*) } :code
    .rodata : { *(.rodata .rodata.*) } :code
    . = ALIGN(32);
    .data : { *(.data .data.*) } :data
    . = ALIGN(4);
    bss_start = .;
    .bss : { *(.bss .bss.* COMMON) } :data
    . = ALIGN(4);
    bss_end = .;

    /* Core c has the 16 KiB below stacks_top - 16 KiB * c. */
    stacks_top = 0x100000;
    ASSERT(bss_end <= stacks_top - 8 * 0x4000, "no room for eight stacks")

    /DISCARD/ : { *(.comment) *(.eh_frame*) }
}
