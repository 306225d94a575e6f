/* Search: 3000 binary searches among 8192 sorted numbers, 32 KiB of them. Each step's address depends on a branch that depends on the step
   before. Tells a sum over the places found. */
#include "program.h"
#ifndef COUNT
#define COUNT 8192
#endif
#ifndef SEARCHES
#define SEARCHES 3000
#endif

static u32 sorted[COUNT];

__attribute__((noinline)) static u32 place_of(u32 key) {
  u32 low = 0, high = COUNT;
  while (low < high) {
    u32 middle = (low + high) / 2;
    asm volatile("" : "+r"(middle));
    if (sorted[middle] < key)
      low = middle + 1;
    else
      high = middle;
  }
  return low;
}

int main(void) {
  u32 state = 1, sum = 0, last = 0;
  for (u32 i = 0; i < COUNT; i++)
    sorted[i] = last += 1 + (i * 2654435769u >> 28);
  for (int i = 0; i < SEARCHES; i++) {
    state = random_after(state);
    sum += place_of(state % last);
  }
  return told("search", sum);
}
