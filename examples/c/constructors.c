/* Runs what stands in .init_array, in its order: constructors of C++, and functions with __attribute__((constructor)). start.S calls it
   before main where it is assembled with -DCONSTRUCTORS. A C library has one of its own. */
typedef void (*constructor)(void);

extern constructor __init_array_start[], __init_array_end[];

void __libc_init_array(void) {
  for (constructor *next = __init_array_start; next < __init_array_end; next++)
    (*next)();
}
