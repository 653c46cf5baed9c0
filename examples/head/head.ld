/* Memory of the head on qemu's machine "virt". A process reaches the two pages at 0x80100000 and nothing else. The
 * processes' structures stand at an address of their own, which a Tproc answers and a stored session has. */
ENTRY(_start)
SECTIONS {
    . = 0x80000000;
    .text : { *(.text.start) *(.text .text.*) }
    .rodata : { *(.rodata .rodata.* .srodata .srodata.*) }
    . = ALIGN(4096);
    .data : { *(.data .data.* .sdata .sdata.*) }
    .bss : ALIGN(16) {
        bss_from = .;
        *(.bss .bss.* .sbss .sbss.* COMMON)
        . = ALIGN(16);
        bss_to = .;
    }
    .stack (NOLOAD) : ALIGN(16) {
        . += 16K;
        stack_top = .;
    }
    . = 0x80080000;
    .processes (NOLOAD) : { *(.processes) }
    . = 0x80100000;
    .window : { *(.window) }
    ASSERT(SIZEOF(.window) == 4096, "the window is one page")
    . = 0x80101000;
    .slots (NOLOAD) : { *(.slots) }
    ASSERT(SIZEOF(.slots) <= 4096, "the slots fit their page")
}
