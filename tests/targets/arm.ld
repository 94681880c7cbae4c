/* All in the first 4 MB of an mps2-an385, which are RAM. */
ENTRY(reset)
MEMORY { RAM : ORIGIN = 0, LENGTH = 4M }
SECTIONS
{
    .text : { KEEP(*(.vectors)) *(.text .text.*) *(.rodata .rodata.*) } > RAM
    .data : { *(.data .data.*) } > RAM
    .bss (NOLOAD) : ALIGN(8) { variables_begin = .; *(.bss .bss.* COMMON) . = ALIGN(8); variables_end = .; } > RAM
    .stack (NOLOAD) : { . += 64K; stack_end = .; } > RAM
    /DISCARD/ : { *(.ARM.exidx* .ARM.extab*) }
}
