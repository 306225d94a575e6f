// What C++ asks for without exceptions: -fno-exceptions -fno-rtti -fno-threadsafe-statics. Without a C library there is no `new`, and no
// destructor runs at the end; with one (-DLIBC) both are there.

extern "C" {
// The name of a program to __cxa_atexit.
void *__dso_handle;

// A virtual function without a body is called: `end trap 3`.
void __cxa_pure_virtual() { __builtin_trap(); }
}

#ifdef LIBC
#include <stdlib.h>

// Memory that isn't there ends the run: there is no exception to tell it by.
static void *taken(size_t size) {
  void *place = malloc(size ? size : 1);
  if (!place)
    abort();
  return place;
}

void *operator new(size_t size) { return taken(size); }
void *operator new[](size_t size) { return taken(size); }
void operator delete(void *place) noexcept { free(place); }
void operator delete(void *place, size_t) noexcept { free(place); }
void operator delete[](void *place) noexcept { free(place); }
void operator delete[](void *place, size_t) noexcept { free(place); }
#else
// Destructors of what is constructed before main: main's return ends the run.
extern "C" int __cxa_atexit(void (*)(void *), void *, void *) { return 0; }

// A class with a virtual destructor names these, also where nothing is ever deleted.
void operator delete(void *) noexcept { __builtin_trap(); }
void operator delete(void *, decltype(sizeof 0)) noexcept { __builtin_trap(); }
#endif
