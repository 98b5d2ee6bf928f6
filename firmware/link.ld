/*
 * A part with 1 MB of flash and 256 KB of RAM, at the addresses of the board mps2-an386 that the emulator has.
 *
 * The stack comes first in RAM: one that outgrows its room runs off the memory's start and faults; it overwrites nothing.
 * It has room for any call of prover and verifier and as much again; compare/firmware/limits.txt has the bounds.
 */
MEMORY
{
    FLASH (rx)  : ORIGIN = 0x00000000, LENGTH = 1M
    RAM   (rwx) : ORIGIN = 0x20000000, LENGTH = 256K
}

PROVIDE(stack_size = 48K);
ENTRY(reset)

SECTIONS
{
    .text : { KEEP(*(.vectors)) *(.text .text.*) *(.rodata .rodata.*) } >FLASH
    .ARM.exidx : { *(.ARM.exidx*) *(.ARM.extab*) } >FLASH

    .stack (NOLOAD) : { stack_bottom = .; . += stack_size; stack_top = .; } >RAM
    .data : ALIGN(8) { data_start = .; *(.data .data.*) . = ALIGN(8); data_end = .; } >RAM AT >FLASH
    data_source = LOADADDR(.data);
    .bss (NOLOAD) : ALIGN(8) { bss_start = .; *(.bss .bss.* COMMON) . = ALIGN(8); bss_end = .; } >RAM
}
