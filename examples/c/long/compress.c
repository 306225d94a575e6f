/* The compression of another text TIMES times; as often as here it takes 10^8 instructions. */
static unsigned seed;
#define SEED seed
#define main once
#include "../programs/compress.c"
#undef main
#ifndef TIMES
#define TIMES 352
#endif

int main(void) {
  int status = 0;
  for (seed = 1; seed <= TIMES && !status; seed++) {
    for (u32 i = 0; i < 1024; i++)
      last[i] = 0;
    status = once();
  }
  return status;
}
