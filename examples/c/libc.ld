/* link.ld with what a C library brings: thread-local variables, whose one copy x4 points to, and sections of its own. */
ENTRY(_start)
PHDRS { text PT_LOAD FLAGS(5); rodata PT_LOAD FLAGS(4); data PT_LOAD FLAGS(6); tls PT_TLS FLAGS(4); }
SECTIONS {
  . = 0x00010000 + (DEFINED(guard) ? guard : 0);
  .text   : { *(.text.start) *(.text .text.*) } :text
  . = ALIGN(64);
  .rodata : { *(.rodata .rodata.* .srodata .srodata.*) } :rodata
  .arrays : {
    PROVIDE_HIDDEN(__preinit_array_start = .); KEEP(*(.preinit_array)) PROVIDE_HIDDEN(__preinit_array_end = .);
    PROVIDE_HIDDEN(__init_array_start = .);
    KEEP(*(SORT_BY_INIT_PRIORITY(.init_array.*))) KEEP(*(.init_array))
    PROVIDE_HIDDEN(__init_array_end = .);
    PROVIDE_HIDDEN(__fini_array_start = .); KEEP(*(.fini_array .fini_array.*)) PROVIDE_HIDDEN(__fini_array_end = .);
  } :rodata
  . = ALIGN(64);
  .data   : { *(.data .data.*) __global_pointer$ = . + 0x800; *(.sdata .sdata.*) } :data
  .tdata  : { __tls_base = .; *(.tdata .tdata.*) } :data :tls
  .tbss   : { *(.tbss .tbss.*) } :data :tls
  .tspace (NOLOAD) : { . += SIZEOF(.tbss); } :data       /* .tbss alone takes no room */
  .bss (NOLOAD) : { *(.sbss .sbss.*) *(.bss .bss.* COMMON) . = ALIGN(16); } :data
  _end = .;
  /DISCARD/ : { *(.eh_frame .eh_frame.*) }
}
ASSERT((DEFINED(guard) ? guard : 0) % 64 == 0, "GUARD is a multiple of 64")
