/* A comparison of two tags that looks at all their bytes: only the answer, one bit, tells of the secret, and it goes out as output, which
   is no part of a trace. compare_early_exit.c is the same but for `equal`. */
#include "crypto.h"

u8 secret[16] = {0xa8, 0x06, 0x1d, 0xc1, 0x30, 0x51, 0x36, 0xc6, 0xc2, 0x2b, 0x8b, 0xaf, 0x0c, 0x01, 0x27, 0xa9};

/* Public: two tags that come from outside, a right one and one whose last byte is wrong. */
static const u8 right[16] = {0xa8, 0x06, 0x1d, 0xc1, 0x30, 0x51, 0x36, 0xc6, 0xc2, 0x2b, 0x8b, 0xaf, 0x0c, 0x01, 0x27, 0xa9};
static const u8 wrong[16] = {0xa8, 0x06, 0x1d, 0xc1, 0x30, 0x51, 0x36, 0xc6, 0xc2, 0x2b, 0x8b, 0xaf, 0x0c, 0x01, 0x27, 0xa8};

/* 1 where two tags are equal, else 0: all differences are gathered, and 0 less 1 alone has a bit above the eighth. */
__attribute__((noinline)) static u32 equal(const u8 *a, const u8 *b) {
  u32 unequal = 0;
  for (int i = 0; i < 16; i++)
    unequal |= a[i] ^ b[i];
  return (unequal - 1) >> 8 & 1;
}

/* Puts out both answers. */
int main(void) {
  u8 answers[2] = {equal(secret, right), equal(secret, wrong)};
  return told(answers, sizeof answers);
}
