/* board.ld: code at 0, data at 20000000 hex, the stack from the end of the memory down. What is in .kept is left as it stands at the start. */
MEMORY
{
    code (rx) : ORIGIN = 0x00000000, LENGTH = 4M
    data (rw) : ORIGIN = 0x20000000, LENGTH = 4M
}

ENTRY(start)

SECTIONS
{
    .text :
    {
        KEEP(*(.vectors))
        *(.text* .rodata*)
        . = ALIGN(4);
    } > code

    .kept (NOLOAD) : { *(.kept*) } > data

    .data : ALIGN(4)
    {
        data_start = .;
        *(.data*)
        . = ALIGN(4);
        data_end = .;
    } > data AT > code
    data_image = LOADADDR(.data);

    .bss (NOLOAD) : ALIGN(4)
    {
        bss_start = .;
        *(.bss* COMMON)
        . = ALIGN(4);
        bss_end = .;
    } > data

    /DISCARD/ : { *(.ARM.exidx* .ARM.extab*) }

    stack_end = ALIGN(bss_end, 8);
    stack_start = ORIGIN(data) + LENGTH(data);
}
