/* Links a User program for ./card image --user, with GNU ld or ld.lld: mips-linux-gnu-ld -EB -T front/user.ld -o PROGRAM.elf PROGRAM.o
   Code and constants are read-only pages from 00400000 on; data, and what begins as zeros, are writable pages after them. */
ENTRY(__start)
PHDRS
{
  code PT_LOAD FLAGS(5);
  data PT_LOAD FLAGS(6);
}
SECTIONS
{
  . = 0x400000;
  .text : { *(.text .text.*) } :code
  .rodata : { *(.rodata .rodata.*) } :code
  . = ALIGN(0x1000);
  .data : { *(.data .data.*) } :data
  .got : { _gp = ALIGN(16) + 0x7ff0; *(.got.plt .got) } :data
  .sdata : { *(.sdata .sdata.*) } :data
  . = ALIGN(0x1000);
  .sbss : { *(.sbss .sbss.* .scommon) } :data
  .bss : { *(.bss .bss.* COMMON) } :data
  /DISCARD/ : { *(.MIPS.abiflags .MIPS.options .reginfo .pdr .gnu.attributes .comment .note .note.* .eh_frame) }
}
