/* The memory of qemu's machine `virt`: RAM from 0x40000000, of which the first part is left to the
 * loader. Program, its data, and the two stacks. */
OUTPUT_FORMAT(elf64-littleaarch64)
ENTRY(reset)

MEMORY { ram : ORIGIN = 0x40080000, LENGTH = 64M }

SECTIONS
{
    .text : { KEEP(*(.text.reset)) *(.text .text.*) } > ram
    .rodata : ALIGN(64) { *(.rodata .rodata.*) } > ram
    .data : ALIGN(64) { *(.data .data.*) } > ram
    .bss (NOLOAD) : ALIGN(64) {
        bss_start = .;
        *(.bss .bss.* COMMON)
        . = ALIGN(16);
        bss_end = .;
    } > ram
    .stacks (NOLOAD) : ALIGN(4096) {
        guaranteed_stack = .;
        . += 64K;
        guaranteed_stack_top = .;
        soft_stack = .;
        . += 32K;
        soft_stack_top = .;
    } > ram
    /DISCARD/ : { *(.comment) *(.note*) *(.eh_frame*) *(.ARM.*) }
}
