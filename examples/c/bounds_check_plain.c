/* Bounds check bypass as textbooks have it, and a test of nothing: the bound is in the cache, so the branch is resolved before the secret
   has come from memory. The verdict is `vacuous`. bounds_check.c has what it takes. */
#include "victim.h"

u8 array[16] __attribute__((aligned(64))) = {1, 2, 3, 4, 5, 6, 7, 8, 9, 10, 11, 12, 13, 14, 15, 16};
volatile u32 bound __attribute__((aligned(64))) = 16;
u8 probe[256 * 64] __attribute__((aligned(64)));
volatile u8 sink;

__attribute__((noinline)) void victim(u32 place) {
  if (place < bound)
    sink &= probe[array[place] * 64];
}

int main(void) {
  for (u32 place = 0; place < 16; place++)
    victim(place);
  victim((u32)(key - array));
  return 0;
}
