/* Rejection: eight secret numbers below 3329, drawn of a secret stream. A candidate is twelve bits of two bytes; whether it is taken is made
   public, one byte for each candidate, and only then a branch is made of it. The numbers themselves stay secret. */
#include "chacha20poly1305.h"
#include "publish.h"

/* RFC 8439, A.1, the third: what comes of this key, from the counter 1 on, is the stream that is drawn from. */
u8 key[32] = {0, 0, 0, 0, 0, 0, 0, 0, 0, 0, 0, 0, 0, 0, 0, 0, 0, 0, 0, 0, 0, 0, 0, 0, 0, 0, 0, 0, 0, 0, 0, 1};

#define NUMBERS 8

int main(void) {
  static const u8 nonce[12];
  u8 block[64], number[2 * NUMBERS];
  for (u32 have = 0, at = 0; have < NUMBERS; at += 2) {
    if (at % 64 == 0)
      stream_block(block, key, nonce, 1 + at / 64);
    u32 candidate = block[at % 64] | (block[at % 64 + 1] & 15) << 8;
    u8 is_taken = (candidate - 3329) >> 31;
    publish(&is_taken, sizeof is_taken);
    if (is_taken) {
      number[2 * have] = candidate;
      number[2 * have + 1] = candidate >> 8;
      have++;
    }
  }
  return told(number, sizeof number);
}
