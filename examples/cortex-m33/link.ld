/* The memory of the board MPS2 with a Cortex-M33 (AN505), as its secure state sees it: 4 MB from 0x10000000, which stand for the flash that
   holds the code, and 4 MB of RAM. */
ENTRY(reset)
MEMORY
{
    CODE (rx) : ORIGIN = 0x10000000, LENGTH = 4M
    RAM (rwx) : ORIGIN = 0x38000000, LENGTH = 4M
}
SECTIONS
{
    .text : { KEEP(*(.vectors)) *(.text .text.*) *(.rodata .rodata.*) } >CODE
    .ARM.exidx : { *(.ARM.exidx .ARM.exidx.*) } >CODE
    .data : ALIGN(8) { data_start = .; *(.data .data.*) . = ALIGN(8); data_end = .; } >RAM AT>CODE
    data_load = LOADADDR(.data);
    .bss (NOLOAD) : ALIGN(8) { bss_start = .; *(.bss .bss.* COMMON) . = ALIGN(8); bss_end = .; } >RAM
    stack_top = ORIGIN(RAM) + LENGTH(RAM);
}
