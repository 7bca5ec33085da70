/* At 2 MiB above the start of memory, where OpenSBI goes on. */
ENTRY(_start)
PHDRS {
    code PT_LOAD FLAGS(5);
    data PT_LOAD FLAGS(6);
}
SECTIONS {
    . = 0x80200000;
    .text : { *(.text.start) *(.text*) } :code
    .rodata : { *(.rodata*) *(.srodata*) } :code
    . = ALIGN(4096);
    .data : { *(.data*) *(.sdata*) } :data
    .bss : { *(.bss*) *(.sbss*) *(COMMON) } :data
    /DISCARD/ : { *(.eh_frame*) *(.note*) *(.comment*) *(.riscv.attributes) }
}
