/* A selection by a mask, without a branch in C. A compiler may make one of it. */
#include "victim.h"

volatile u32 sink;

__attribute__((noinline)) u32 choose(u32 condition, u32 a, u32 b) {
  u32 mask = -(u32)(condition != 0);
  return (a & mask) | (b & ~mask);
}

int main(void) {
  u32 sum = 0;
  for (int i = 0; i < 8; i++)
    sum += choose((key[3] >> i) & 1, 0x1234 + i, 0x5678);
  sink = sum;
  return 0;
}
