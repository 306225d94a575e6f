/* A cipher with tables: AES-128 (FIPS 197), 60 blocks. The S-box is made at the start; each byte of the state is an index into it, so what
   was loaded is the address of the next load. The first block is that of the standard's appendix B, and is compared with it. */
#include "program.h"
#define BLOCKS 60

static u8 box[256] __attribute__((aligned(64))), keys[176];

static u8 doubled(u8 value) {
  return value << 1 ^ (value >> 7) * 0x1b;
}

/* The S-box by the powers of 3 and of its inverse (FIPS 197, 5.1.1). */
static void make_box(void) {
  u8 p = 1, q = 1;
  do {
    p ^= doubled(p);
    q ^= q << 1;
    q ^= q << 2;
    q ^= q << 4;
    q ^= (q >> 7) * 0x09;
    box[p] = q ^ (q << 1 | q >> 7) ^ (q << 2 | q >> 6) ^ (q << 3 | q >> 5) ^ (q << 4 | q >> 4) ^ 0x63;
  } while (p != 1);
  box[0] = 0x63;
}

static void expand(const u8 *key) {
  u8 constant = 1;
  for (int i = 0; i < 16; i++)
    keys[i] = key[i];
  for (int i = 16; i < 176; i += 4) {
    u8 word[4] = {keys[i - 4], keys[i - 3], keys[i - 2], keys[i - 1]};
    if (i % 16 == 0) {
      u8 first = word[0];
      word[0] = box[word[1]] ^ constant, word[1] = box[word[2]], word[2] = box[word[3]], word[3] = box[first];
      constant = doubled(constant);
    }
    for (int k = 0; k < 4; k++)
      keys[i + k] = keys[i + k - 16] ^ word[k];
  }
}

__attribute__((noinline)) static void encrypt(u8 *state) {
  u8 next[16];
  for (int i = 0; i < 16; i++)
    state[i] ^= keys[i];
  for (int round = 1; round <= 10; round++) {
    for (int i = 0; i < 16; i++)
      next[i] = box[state[(i + 4 * (i % 4)) % 16]];
    for (int i = 0; i < 16; i += 4) {
      u8 all = next[i] ^ next[i + 1] ^ next[i + 2] ^ next[i + 3];
      for (int k = 0; k < 4; k++)
        state[i + k] = keys[16 * round + i + k] ^ next[i + k] ^ (round < 10 ? all ^ doubled(next[i + k] ^ next[i + (k + 1) % 4]) : 0);
    }
  }
}

int main(void) {
  static const u8 key[16] = {0x2b, 0x7e, 0x15, 0x16, 0x28, 0xae, 0xd2, 0xa6, 0xab, 0xf7, 0x15, 0x88, 0x09, 0xcf, 0x4f, 0x3c};
  u8 state[16] = {0x32, 0x43, 0xf6, 0xa8, 0x88, 0x5a, 0x30, 0x8d, 0x31, 0x31, 0x98, 0xa2, 0xe0, 0x37, 0x07, 0x34};
  u32 mixed = 0;
  make_box();
  expand(key);
  encrypt(state);
  if (state[0] != 0x39 || state[1] != 0x25 || state[15] != 0x32)
    return told("wrong", state[0]);
  for (int i = 1; i < BLOCKS; i++)
    encrypt(state);
  for (int i = 0; i < 16; i++)
    mixed = mixed * 31 + state[i];
  return told("aes", mixed);
}
