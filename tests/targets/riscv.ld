/* All in the RAM of QEMU's virt. */
ENTRY(entry)
MEMORY { RAM : ORIGIN = 0x80000000, LENGTH = 16M }
SECTIONS
{
    .text : { KEEP(*(.vectors)) *(.text .text.*) *(.rodata .rodata.* .srodata .srodata.*) } > RAM
    .data : { *(.data .data.* .sdata .sdata.*) } > RAM
    .bss (NOLOAD) : ALIGN(16) { variables_begin = .; *(.sbss .sbss.* .bss .bss.* COMMON) . = ALIGN(16); variables_end = .; } > RAM
    .stack (NOLOAD) : { . += 64K; stack_end = .; } > RAM
}
