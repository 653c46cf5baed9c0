/* A test on qemu's machine "virt": code, data, and two stacks, one for the test, one for the calls that it measures. */
ENTRY(_start)
SECTIONS {
    . = 0x80000000;
    .text : { *(.text.start) *(.text .text.*) }
    .rodata : { *(.rodata .rodata.* .srodata .srodata.*) }
    . = ALIGN(4096);
    .data : { *(.data .data.* .sdata .sdata.*) }
    .bss : ALIGN(16) { *(.bss .bss.* .sbss .sbss.* COMMON) }
    .stacks (NOLOAD) : ALIGN(16) {
        . += 64K;
        stack_top = .;
        measured_low = .;
        . += 16K;
        measured_top = .;
    }
}
