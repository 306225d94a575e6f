/* One block of ChaCha20 (RFC 8439): sums, exclusive ors and turns of words, so that neither a branch nor an address is made of the key. */
#include "crypto.h"

u8 key[32] = {0x00, 0x01, 0x02, 0x03, 0x04, 0x05, 0x06, 0x07, 0x08, 0x09, 0x0a, 0x0b, 0x0c, 0x0d, 0x0e, 0x0f,
              0x10, 0x11, 0x12, 0x13, 0x14, 0x15, 0x16, 0x17, 0x18, 0x19, 0x1a, 0x1b, 0x1c, 0x1d, 0x1e, 0x1f};

/* Public: which block, and the number that is used once. */
static const u32 counter = 1;
static const u8 nonce[12] = {0x00, 0x00, 0x00, 0x09, 0x00, 0x00, 0x00, 0x4a, 0x00, 0x00, 0x00, 0x00};

/* A word turned to the left. */
static u32 turned(u32 word, int by) {
  return word << by | word >> (32 - by);
}

/* The quarter round, on four words of the state. */
static void quarter(u32 *x, int a, int b, int c, int d) {
  x[a] += x[b], x[d] = turned(x[d] ^ x[a], 16);
  x[c] += x[d], x[b] = turned(x[b] ^ x[c], 12);
  x[a] += x[b], x[d] = turned(x[d] ^ x[a], 8);
  x[c] += x[d], x[b] = turned(x[b] ^ x[c], 7);
}

/* The state before the rounds: four constant words, the key, the counter and the nonce. */
static void begin(u32 *state) {
  static const u32 constant[4] = {0x61707865, 0x3320646e, 0x79622d32, 0x6b206574};
  for (int i = 0; i < 4; i++)
    state[i] = constant[i];
  for (int i = 0; i < 8; i++)
    state[4 + i] = word_of(key + 4 * i);
  state[12] = counter;
  for (int i = 0; i < 3; i++)
    state[13 + i] = word_of(nonce + 4 * i);
}

/* Twenty rounds, down the columns and down the diagonals by turns. */
static void rounds(u32 *x) {
  for (int twice = 0; twice < 10; twice++) {
    quarter(x, 0, 4, 8, 12);
    quarter(x, 1, 5, 9, 13);
    quarter(x, 2, 6, 10, 14);
    quarter(x, 3, 7, 11, 15);
    quarter(x, 0, 5, 10, 15);
    quarter(x, 1, 6, 11, 12);
    quarter(x, 2, 7, 8, 13);
    quarter(x, 3, 4, 9, 14);
  }
}

/* Puts out one block: the state after the rounds, and added to it the state before them. */
int main(void) {
  u32 state[16], x[16];
  u8 block[64];
  begin(state);
  for (int i = 0; i < 16; i++)
    x[i] = state[i];
  rounds(x);
  for (int i = 0; i < 16; i++)
    put_word(block + 4 * i, x[i] + state[i]);
  return told(block, sizeof block);
}
