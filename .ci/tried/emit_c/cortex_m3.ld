/* mps2-an385: code from 0 on, data from 0x20000000 on. QEMU loads both, and memory that it doesn't load is 0. */
MEMORY
{
    CODE : ORIGIN = 0x00000000, LENGTH = 4M
    DATA : ORIGIN = 0x20000000, LENGTH = 4M
}

SECTIONS
{
    .text : { KEEP(*(.vectors)) *(.text*) *(.rodata*) } > CODE
    .ARM.exidx : { *(.ARM.exidx*) } > CODE
    .data : { *(.data*) } > DATA
    .bss : { *(.bss*) *(COMMON) } > DATA
    end = .;
    end_of_stack = ORIGIN(DATA) + LENGTH(DATA);
}
