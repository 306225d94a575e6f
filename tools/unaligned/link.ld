/* As examples/c/link.ld, but each segment in pages of its own, which qemu-riscv32 needs. */
ENTRY(_start)
PHDRS { text PT_LOAD FLAGS(5); data PT_LOAD FLAGS(6); }
SECTIONS {
  . = 0x00010000;
  .text : { *(.text.start) *(.text .text.*) } :text
  . = ALIGN(4096);
  .data : { *(.rodata .rodata.* .srodata .srodata.*) *(.data .data.*) __global_pointer$ = . + 0x800; *(.sdata .sdata.*) LONG(0) } :data
  .bss (NOLOAD) : { *(.sbss .sbss.*) *(.bss .bss.* COMMON) } :data
}
