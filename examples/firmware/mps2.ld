/*
 * mps2.ld: where code and state stand on QEMU's mps2-an386. The board has 4 MiB of each memory; the
 * image is held to what a small microcontroller has, and all of it to 64 KiB.
 */
ENTRY(reset)

MEMORY
{
    FLASH (rx)  : ORIGIN = 0x00000000, LENGTH = 32K
    RAM   (rwx) : ORIGIN = 0x20000000, LENGTH = 32K
}

SECTIONS
{
    .text :
    {
        KEEP(*(.vectors))
        *(.text .text.*)
        *(.rodata .rodata.*)
        . = ALIGN(4);
    } > FLASH

    .data :
    {
        data_start = .;
        *(.data .data.*)
        . = ALIGN(4);
        data_end = .;
    } > RAM AT > FLASH
    data_in_flash = LOADADDR(.data);

    .bss (NOLOAD) :
    {
        bss_start = .;
        *(.bss .bss.* COMMON)
        . = ALIGN(8);
        bss_end = .;
    } > RAM

    /* The dearest event takes 1,228 bytes (tests/stack.c); the loop around it and an interrupt take 200 more. */
    .stack (NOLOAD) :
    {
        . = . + 2K;
        . = ALIGN(8);
        stack_end = .;
    } > RAM

    /DISCARD/ : { *(.ARM.exidx* .ARM.extab* .comment) }
}
