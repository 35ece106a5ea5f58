/* Where a program for 32-bit RISC-V lies. What is marked BOARD is of QEMU's machine `virt`. */
MEMORY
{
    CODE (rx) : ORIGIN = 0x80000000, LENGTH = 4M  /* BOARD: its flash, here RAM */
    RAM (rwx) : ORIGIN = 0x80400000, LENGTH = 4M  /* BOARD: its RAM */
}
ENTRY(start)

SECTIONS
{
    .text : { *(.text.start) *(.text .text.*) *(.rodata .rodata.* .srodata .srodata.*) . = ALIGN(8); } > CODE
    .data : ALIGN(8) { data = .; *(.data .data.* .sdata .sdata.*) . = ALIGN(8); data_end = .; } > RAM AT > CODE
    data_from = LOADADDR(.data);
    .bss (NOLOAD) : ALIGN(16) { zeros = .; *(.bss .bss.* .sbss .sbss.*) *(COMMON) . = ALIGN(16); zeros_end = .; } > RAM
    stack_end = ORIGIN(RAM) + LENGTH(RAM);
}
