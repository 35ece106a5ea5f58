/* Where the program lies in the RAM of QEMU's machine `virt`, which begins at 1 GB. */
ENTRY(start)

PHDRS
{
    code PT_LOAD FLAGS(5);
    data PT_LOAD FLAGS(6);
}

SECTIONS
{
    . = 0x40080000;
    .text : { *(.text.start) *(.text .text.*) } :code
    .rodata : ALIGN(4096) { *(.rodata .rodata.*) } :code
    .data : ALIGN(4096) { *(.data .data.*) } :data
    .bss : ALIGN(16) {
        zeros = .;
        *(.bss .bss.*) *(COMMON)
        . = ALIGN(16);
        zeros_end = .;
        . += 0x8000;
        stack_end = .;
    } :data
    /DISCARD/ : { *(.comment) *(.note.*) *(.eh_frame*) }
}
