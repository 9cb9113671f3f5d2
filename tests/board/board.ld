/* The memory of the emulated board mps2-an386, as far as it is used here. */
MEMORY {
    code : ORIGIN = 0x00000000, LENGTH = 4M
    ram : ORIGIN = 0x20000000, LENGTH = 4M
    notes : ORIGIN = 0x21000000, LENGTH = 16M
}
stack_top = ORIGIN(ram) + LENGTH(ram);
notes_at = ORIGIN(notes);
notes_end = ORIGIN(notes) + LENGTH(notes);
SECTIONS {
    .text : { KEEP(*(.vectors)) *(.text*) *(.rodata*) } > code
    .data : { *(.data*) } > ram
    .bss (NOLOAD) : { bss_start = .; *(.bss*) *(COMMON) . = ALIGN(4); bss_end = .; } > ram
    /DISCARD/ : { *(.ARM.exidx*) *(.ARM.extab*) }
}
ASSERT(SIZEOF(.data) == 0, "the start-up copies no data")
