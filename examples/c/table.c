/* A table lookup by a secret: the line that is loaded tells it, on the path itself. */
#include "victim.h"

u8 box[256] __attribute__((aligned(64)));
volatile u8 sink;

__attribute__((noinline)) u8 lookup(u8 place) {
  return box[place];
}

int main(void) {
  sink = lookup(key[0] ^ 0x5a);
  return 0;
}
