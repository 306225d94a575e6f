#include "io.h"

static char line[256];
static unsigned used;

int write(int stream, const void *bytes, unsigned count) {
  register long a0 asm("a0") = stream;
  register const void *a1 asm("a1") = bytes;
  register long a2 asm("a2") = count;
  register long a7 asm("a7") = 64;
  asm volatile("ecall" : "+r"(a0) : "r"(a1), "r"(a2), "r"(a7) : "memory");
  return a0;
}

int putchar(int byte) {
  line[used++] = byte;
  if (byte == '\n' || used == sizeof line) {
    write(1, line, used);
    used = 0;
  }
  return byte;
}

int puts(const char *text) {
  while (*text)
    putchar(*text++);
  return putchar('\n');
}
