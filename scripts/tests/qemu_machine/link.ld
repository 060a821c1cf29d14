/* The program stands in the RAM of QEMU's machine `virt`, after its device tree. */
ENTRY(start)
SECTIONS {
    . = 0x40100000;
    .text : { *(.text.start) *(.text*) }
    .rodata : { *(.rodata*) }
    . = ALIGN(4096);
    .data : { *(.data*) }
    .bss : { *(.bss*) *(COMMON) }
    /DISCARD/ : { *(.comment) *(.note*) *(.eh_frame*) }
}
