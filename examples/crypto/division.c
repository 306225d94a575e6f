/* The lowest bit of a message from a coefficient of ML-KEM (FIPS 203, Compress with d = 1), by division with the modulus: the divider's time
   tells how long the dividend is. division_by_product.c does without. The modulus is public, and in memory, so that no compiler knows it. */
#include "crypto.h"

/* Four coefficients below 3329: the outermost that round to 0, to 1 and to 2, which is 0 again. */
u32 secret[4] = {832, 833, 2496, 2497};

/* Public. */
u32 modulus = 3329;

/* 2 x / modulus to the nearest whole number, its lowest bit. */
__attribute__((noinline)) static u32 compress(u32 x) {
  return (2 * x + modulus / 2) / modulus & 1;
}

/* Puts out a bit for each coefficient. */
int main(void) {
  u8 bits[4];
  for (int i = 0; i < 4; i++)
    bits[i] = compress(secret[i]);
  return told(bits, sizeof bits);
}
