/* A cipher without tables: ChaCha20 (RFC 8439), 40 blocks with the key and the counter of its section 2.3.2. Neither branches nor addresses
   depend on the key. Tells the first word of the first block, which that section has as 10f1e7e4 in the order of its bytes, mixed with all others. */
#include "program.h"
#define BLOCKS 40

static u32 turned(u32 word, int by) {
  return word << by | word >> (32 - by);
}

static void quarter(u32 *a, u32 *b, u32 *c, u32 *d) {
  *a += *b, *d = turned(*d ^ *a, 16);
  *c += *d, *b = turned(*b ^ *c, 12);
  *a += *b, *d = turned(*d ^ *a, 8);
  *c += *d, *b = turned(*b ^ *c, 7);
}

__attribute__((noinline)) static void block(const u32 *state, u32 *out) {
  u32 x[16];
  for (int i = 0; i < 16; i++)
    x[i] = state[i];
  for (int round = 0; round < 10; round++) {
    for (int i = 0; i < 4; i++)
      quarter(x + i, x + 4 + i, x + 8 + i, x + 12 + i);
    for (int i = 0; i < 4; i++)
      quarter(x + i, x + 4 + (i + 1) % 4, x + 8 + (i + 2) % 4, x + 12 + (i + 3) % 4);
  }
  for (int i = 0; i < 16; i++)
    out[i] = x[i] + state[i];
}

int main(void) {
  u32 state[16] = {0x61707865, 0x3320646e, 0x79622d32, 0x6b206574}, out[16], mixed = 0;
  for (int i = 0; i < 8; i++)
    state[4 + i] = 0x03020100 + 0x04040404 * i;
  state[12] = 1, state[13] = 0x09000000, state[14] = 0x4a000000, state[15] = 0;
  block(state, out);
  if (out[0] != 0xe4e7f110 || out[15] != 0x4e3c50a2)
    return told("wrong", out[0]);
  for (int n = 0; n < BLOCKS; n++) {
    block(state, out);
    state[12]++;
    for (int i = 0; i < 16; i++)
      mixed = mixed * 31 + out[i];
  }
  return told("chacha", mixed);
}
