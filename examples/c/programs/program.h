/* What the programs share: names of types, numbers that look random, and a result in hexadecimal digits. */
#include "../io.h"
typedef unsigned char u8;
typedef unsigned short u16;
typedef unsigned int u32;

/* The next of a row of numbers that look random (xorshift; Marsaglia, 2003). It never is 0. */
static inline u32 random_after(u32 state) {
  state ^= state << 13;
  state ^= state >> 17;
  return state ^ state << 5;
}

/* Puts a name and a number, and answers main's value: 0. */
static inline int told(const char *name, u32 number) {
  while (*name)
    putchar(*name++);
  putchar(' ');
  for (int digit = 28; digit >= 0; digit -= 4)
    putchar("0123456789abcdef"[number >> digit & 15]);
  putchar('\n');
  return 0;
}
