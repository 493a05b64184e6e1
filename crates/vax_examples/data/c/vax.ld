/* A user's program: code and constants from page 1 on, then data, each on pages of 512 bytes of its own. */
OUTPUT_FORMAT("elf32-vax")
OUTPUT_ARCH(vax)
ENTRY(_start)

PHDRS
{
  text PT_LOAD FLAGS(5);
  data PT_LOAD FLAGS(6);
}

SECTIONS
{
  . = 0x200;
  .text : { *(.text.start) *(.text .text.*) *(.rodata .rodata.*) } :text
  . = ALIGN(512);
  .data : { *(.data .data.*) } :data
  .bss : { *(.bss .bss.*) *(COMMON) } :data
  /DISCARD/ : { *(.comment) *(.note*) *(.eh_frame*) }
}
