# Where the run begins. The machine sets x2, the stack pointer, 16 bytes below the end of memory, and all else to 0.
#   -DCONSTRUCTORS   calls what stands in .init_array before main: constructors of C++, and __attribute__((constructor))
#   -DLIBC           sets x4 for thread-local variables, such as errno, too, and leaves by the library's exit
#   -DGUARD=BYTES    puts a stack of so many bytes below the image, where memory begins: what goes below it is outside memory, and traps
#ifdef LIBC
#define CONSTRUCTORS
#endif
    .section .text.start, "ax"
    .globl _start
_start:
    .option push
    .option norelax                # else the linker makes this `mv gp, gp`
    la   gp, __global_pointer$
    .option pop
#ifdef GUARD
#ifdef LIBC
    la   t0, memory_end            # how far the heap may go
    sw   sp, 0(t0)
#endif
    li   sp, 0x10000 + GUARD
#endif
#ifdef LIBC
    la   tp, __tls_base
#endif
#ifdef CONSTRUCTORS
    call __libc_init_array
#endif
    call main
#ifdef LIBC
    call exit                      # what is registered with atexit, then _exit of libc.c
#else
    li   a7, 93                    # exit with main's value
    ecall
#endif
    .file "start.S"                # else the assembler's name for it, another each time, stands in the image
