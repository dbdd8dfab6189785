/* The memory of the emulator's board `virt`: RAM from 0x80000000, where the program is loaded and begins. */
ENTRY(start)
MEMORY
{
    RAM (rwx) : ORIGIN = 0x80000000, LENGTH = 16M
}
SECTIONS
{
    .text : { KEEP(*(.start)) *(.text .text.*) *(.rodata .rodata.* .srodata .srodata.*) } >RAM
    .data : ALIGN(8) { *(.data .data.* .sdata .sdata.*) } >RAM
    .bss (NOLOAD) : ALIGN(8) { bss_start = .; *(.sbss .sbss.* .bss .bss.* COMMON) . = ALIGN(8); bss_end = .; } >RAM
    stack_top = ORIGIN(RAM) + LENGTH(RAM);
}
