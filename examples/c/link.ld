/* Three segments. Every byte of an executable segment is code, and two images of unequal code are promised nothing (docs/using.md,
   "What is not protected"): so constants have a segment of their own. Memory begins at 0x00010000 in the descriptions of examples/ and
   for `isa` without one. What the stack leaves between _end and itself is free. With `guard` bytes the stack lies below the image instead. */
ENTRY(_start)
PHDRS { text PT_LOAD FLAGS(5); rodata PT_LOAD FLAGS(4); data PT_LOAD FLAGS(6); }
SECTIONS {
  . = 0x00010000 + (DEFINED(guard) ? guard : 0);
  .text   : { *(.text.start) *(.text .text.*) } :text
  . = ALIGN(64);
  .rodata : { *(.rodata .rodata.* .srodata .srodata.*) } :rodata
  .init_array : {
    PROVIDE_HIDDEN(__init_array_start = .);
    KEEP(*(SORT_BY_INIT_PRIORITY(.init_array.*))) KEEP(*(.init_array))
    PROVIDE_HIDDEN(__init_array_end = .);
  } :rodata
  . = ALIGN(64);
  .data   : { *(.data .data.*) __global_pointer$ = . + 0x800; *(.sdata .sdata.*) } :data
  .bss (NOLOAD) : { *(.sbss .sbss.*) *(.bss .bss.* COMMON) } :data
  _end = .;
}
ASSERT(SIZEOF(.init_array) == 0 || DEFINED(__libc_init_array),
       "constructors would be skipped: start.S wants -DCONSTRUCTORS, with constructors.c (make CONSTRUCTORS=1)")
ASSERT((DEFINED(guard) ? guard : 0) % 64 == 0, "GUARD is a multiple of 64")
