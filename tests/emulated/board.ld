/* The LM3S6965: 256 KB of flash, 64 KB of RAM. The stack is at the front of RAM, where its overflow is a fault and overwrites nothing. */
MEMORY
{
    FLASH (rx) : ORIGIN = 0x00000000, LENGTH = 256K
    RAM (rwx)  : ORIGIN = 0x20000000, LENGTH = 64K
}

ENTRY(reset)

SECTIONS
{
    .text : { KEEP(*(.vectors)) *(.text .text.*) *(.rodata .rodata.*) . = ALIGN(4); } > FLASH
    .stack (NOLOAD) : { stack_bottom = .; . = . + 4K; stack_top = .; } > RAM
    .data : { data_begin = .; *(.data .data.*) . = ALIGN(4); data_end = .; } > RAM AT > FLASH
    data_in_flash = LOADADDR(.data);
    .bss (NOLOAD) : { bss_begin = .; *(.bss .bss.* COMMON) . = ALIGN(4); bss_end = .; } > RAM AT > RAM
    /DISCARD/ : { *(.ARM.exidx*) *(.ARM.extab*) }
}
