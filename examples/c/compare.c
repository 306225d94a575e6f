/* A comparison in constant time: it loads the secret on its path, so nothing is promised; the traces are equal all the same. */
#include "victim.h"

static const u8 guess[16] = {9, 9, 9, 9, 9, 9, 9, 9, 9, 9, 9, 9, 9, 9, 9, 9};

__attribute__((noinline)) u32 equal(const u8 *a, const u8 *b, u32 count) {
  u32 unequal = 0;
  for (u32 i = 0; i < count; i++)
    unequal |= a[i] ^ b[i];
  return 1 & ((unequal - 1) >> 8);
}

int main(void) {
  return equal(key, guess, 16);
}
