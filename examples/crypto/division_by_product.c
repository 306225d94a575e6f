/* The lowest bit of a message from a coefficient of ML-KEM (FIPS 203, Compress with d = 1), without a division: 80635 / 2^28 is so near to
   1 / 3329 that the whole part is right for all coefficients. division.c divides. */
#include "crypto.h"

/* Four coefficients below 3329: the outermost that round to 0, to 1 and to 2, which is 0 again. */
u32 secret[4] = {832, 833, 2496, 2497};

/* 2 x / 3329 to the nearest whole number, its lowest bit. */
__attribute__((noinline)) static u32 compress(u32 x) {
  return (2 * x + 1665) * 80635 >> 28 & 1;
}

/* Puts out a bit for each coefficient. */
int main(void) {
  u8 bits[4];
  for (int i = 0; i < 4; i++)
    bits[i] = compress(secret[i]);
  return told(bits, sizeof bits);
}
