/* link.ld: where all of it lies. RAM and STACK are bytes, given by --defsym: what wouldn't leave the stack its bytes isn't
 * linked. The addresses are those of qemu's mps2-an385. */
MEMORY
{
    flash (rx) : ORIGIN = 0, LENGTH = 256K
    ram (rw) : ORIGIN = 0x20000000, LENGTH = RAM
}
ENTRY(start)
SECTIONS
{
    .text : { KEEP(*(.vectors)) *(.text*) *(.rodata*) . = ALIGN(8); } >flash
    .ARM.exidx : { *(.ARM.exidx*) } >flash
    .data : ALIGN(8) { data_begin = .; *(.data*) . = ALIGN(8); data_end = .; } >ram AT>flash
    data_in_flash = LOADADDR(.data);
    .bss (NOLOAD) : ALIGN(8) { zeros_begin = .; *(.bss*) *(COMMON) . = ALIGN(8); zeros_end = .; } >ram
    stack_end = zeros_end;
    stack_begin = ORIGIN(ram) + RAM;
    ASSERT(stack_begin - stack_end >= STACK, "what lies in RAM leaves the stack too little")
}
