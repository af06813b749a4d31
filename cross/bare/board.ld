/* Code at 0 and data at 2000 0000, as on both boards that cross/board runs. */
MEMORY
{
    CODE (rx) : ORIGIN = 0x00000000, LENGTH = 256K
    DATA (rw) : ORIGIN = 0x20000000, LENGTH = 1M
}

ENTRY(_start)

SECTIONS
{
    .text : {
        KEEP(*(.vectors))
        *(.text .text.* .rodata .rodata.*)
        KEEP(*(.init)) KEEP(*(.fini))
        *(.eh_frame)
    } >CODE
    .ARM.extab : { *(.ARM.extab*) } >CODE
    .ARM.exidx : { __exidx_start = .; *(.ARM.exidx*) __exidx_end = .; } >CODE
    .init_array : {
        __preinit_array_start = .; KEEP(*(.preinit_array)) __preinit_array_end = .;
        __init_array_start = .; KEEP(*(SORT(.init_array.*) .init_array)) __init_array_end = .;
        __fini_array_start = .; KEEP(*(SORT(.fini_array.*) .fini_array)) __fini_array_end = .;
    } >CODE
    .data : ALIGN(8) { *(.data .data.*) } >DATA
    .bss : ALIGN(8) {
        __bss_start__ = .;
        *(.bss .bss.* COMMON)
        . = ALIGN(8);
        __bss_end__ = .;
        end = .;
        __end__ = .;
    } >DATA
    stack_top = ORIGIN(DATA) + LENGTH(DATA);
}
