/* Bounds check bypass: the bound comes late, the branch is taught to let pass, and what lies past the bound makes an address. On the path
   the secret is never loaded. Three things make it real, and without one of them the verdict is `vacuous`: the bound isn't in the cache,
   so the branch is resolved late; the secret is, so its value comes early; and nothing is in flight at the call. */
#include "victim.h"

u8 array[16] __attribute__((aligned(64))) = {1, 2, 3, 4, 5, 6, 7, 8, 9, 10, 11, 12, 13, 14, 15, 16};
volatile u32 bound __attribute__((aligned(64))) = 16;
u8 probe[256 * 64] __attribute__((aligned(64)));
volatile u8 sink;
static volatile u8 other[40960];

__attribute__((noinline)) void victim(u32 place) {
  if (place < bound)
    sink &= probe[array[place] * 64];
}

/* Reads ten lines for each set of the cache, which has eight: what was there is gone. There is no instruction that flushes. */
static void evict(void) {
  for (int i = 0; i < 40960; i += 64)
    (void)other[i];
}

int main(void) {
  u32 past = (u32)(key - array);
  for (int turn = 0; turn < 20; turn++) {
    int attack = turn % 5 == 4;
    if (attack) {
      evict();
      (void)*(volatile u8 *)((u32)key + 16); /* the key's line comes into the cache, and none of the key is loaded */
    }
    barrier();
    u32 mask = -(u32)attack;                /* no branch tells the victim which call it is */
    victim((past & mask) | ((turn & 15) & ~mask));
  }
  return 0;
}
