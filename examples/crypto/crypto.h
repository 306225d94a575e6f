/* What the programs share: names of types, words as bytes, and output. */
#include "../c/io.h"
typedef unsigned char u8;
typedef unsigned int u32;
typedef unsigned long long u64;

/* Four bytes as a word, the lowest first. */
static inline u32 word_of(const u8 *bytes) {
  return bytes[0] | (u32)bytes[1] << 8 | (u32)bytes[2] << 16 | (u32)bytes[3] << 24;
}

/* A word as four bytes, the lowest first. */
static inline void put_word(u8 *bytes, u32 word) {
  for (int i = 0; i < 4; i++)
    bytes[i] = word >> 8 * i;
}

/* All ones of the bit 1, and 0 of 0. The empty instruction keeps from the compiler that it is one bit: clang makes a branch of that. */
static inline u32 mask_of(u32 bit) {
  asm("" : "+r"(bit));
  return -bit;
}

/* 1 where two texts are equal, else 0: all differences are gathered, and 0 less 1 alone has a bit above the eighth. */
static inline u32 are_equal(const u8 *a, const u8 *b, u32 count) {
  u32 unequal = 0;
  for (u32 i = 0; i < count; i++)
    unequal |= a[i] ^ b[i];
  return (unequal - 1) >> 8 & 1;
}

/* Puts out the bytes of a result by one call, which makes one `out` line of the report, and answers main's value: 0. */
static inline int told(const u8 *bytes, u32 count) {
  write(1, bytes, count);
  return 0;
}
