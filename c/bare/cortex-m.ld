/* Where a program for Cortex-M lies. What is marked BOARD is of QEMU's machines `mps2-an385` and
 * `mps2-an386`. For `microbit` c/Makefile tells less flash and RAM. */
MEMORY
{
    CODE (rx) : ORIGIN = 0x00000000, LENGTH = DEFINED(flash_bytes) ? flash_bytes : 4M  /* BOARD: its flash */
    RAM (rwx) : ORIGIN = 0x20000000, LENGTH = DEFINED(ram_bytes) ? ram_bytes : 4M  /* BOARD: its RAM */
}
ENTRY(reset)

SECTIONS
{
    .text : { LONG(stack_end) KEEP(*(.vectors)) *(.text .text.*) *(.rodata .rodata.*) . = ALIGN(8); } > CODE
    .ARM.exidx : { __exidx_start = .; *(.ARM.exidx*) __exidx_end = .; } > CODE
    .data : ALIGN(8) { data = .; *(.data .data.*) . = ALIGN(8); data_end = .; } > RAM AT > CODE
    data_from = LOADADDR(.data);
    .bss (NOLOAD) : ALIGN(16) { zeros = .; *(.bss .bss.*) *(COMMON) . = ALIGN(16); zeros_end = .; end = .; } > RAM
    stack_end = ORIGIN(RAM) + LENGTH(RAM);
}
