/* Poly1305 (RFC 8439): a message as a polynomial, at a secret place modulo 2^130 - 5. Numbers have five limbs of 26 bits, the lowest first,
   so that products and their sums fit 64 bits; no branch is made of a carry. */
#include "crypto.h"

/* The place r, and s, which is added at the end. */
u8 key[32] = {0x85, 0xd6, 0xbe, 0x78, 0x57, 0x55, 0x6d, 0x33, 0x7f, 0x44, 0x52, 0xfe, 0x42, 0xd5, 0x06, 0xa8,
              0x01, 0x03, 0x80, 0x8a, 0xfb, 0x0d, 0xb2, 0xfd, 0x4a, 0xbf, 0xf6, 0xaf, 0x41, 0x49, 0xf5, 0x1b};

/* Public: the message. */
static const char message[] = "Cryptographic Forum Research Group";

#define LENGTH (sizeof message - 1)
#define LIMB 0x3ffffffu

/* Sixteen bytes as limbs, with a word above them. */
static void limbs_of(u32 *limb, const u8 *bytes, u32 above) {
  u32 a = word_of(bytes), b = word_of(bytes + 4), c = word_of(bytes + 8), d = word_of(bytes + 12);
  limb[0] = a & LIMB;
  limb[1] = (a >> 26 | b << 6) & LIMB;
  limb[2] = (b >> 20 | c << 12) & LIMB;
  limb[3] = (c >> 14 | d << 18) & LIMB;
  limb[4] = d >> 8 | above << 24;
}

/* The place: the first half of the key without the bits that the standard clears. */
static void place_of(u32 *r) {
  u8 bytes[16];
  for (int i = 0; i < 16; i++)
    bytes[i] = key[i] & (i % 4 == 3 ? 0x0f : i % 4 == 0 && i ? 0xfc : 0xff);
  limbs_of(r, bytes, 0);
}

/* The product with r, in the place of a number. 2^130 counts 5. */
static void multiply(u32 *h, const u32 *r) {
  u64 sum[5] = {0}, carry = 0;
  for (int i = 0; i < 5; i++)
    for (int j = 0; j < 5; j++)
      sum[i] += (u64)h[j] * (j <= i ? r[i - j] : 5 * r[i - j + 5]);
  for (int i = 0; i < 5; i++) {
    carry += sum[i];
    h[i] = carry & LIMB;
    carry >>= 26;
  }
  carry = h[0] + 5 * carry;
  h[0] = carry & LIMB;
  h[1] += carry >> 26;
}

/* One block of a message, up to sixteen bytes and a 1 behind them. */
static void take(u32 *h, const u32 *r, const char *bytes, u32 count) {
  u8 block[16] = {0};
  u32 limb[5];
  for (u32 i = 0; i < count; i++)
    block[i] = bytes[i];
  if (count < 16)
    block[count] = 1;
  limbs_of(limb, block, count == 16);
  for (int i = 0; i < 5; i++)
    h[i] += limb[i];
  multiply(h, r);
}

/* Carries through all limbs, from this carry on, and answers what goes beyond 2^130. */
static u32 carried(u32 *h, u32 carry) {
  for (int i = 0; i < 5; i++) {
    carry += h[i];
    h[i] = carry & LIMB;
    carry >>= 26;
  }
  return carry;
}

/* Brings a number below 2^130 - 5: 5 more go beyond 2^130 exactly where the modulus has to go. */
static void reduce(u32 *h) {
  u32 more[5];
  h[0] += 5 * carried(h, 0);
  carried(h, 0);
  for (int i = 0; i < 5; i++)
    more[i] = h[i];
  u32 mask = -carried(more, 5);
  for (int i = 0; i < 5; i++)
    h[i] ^= (h[i] ^ more[i]) & mask;
}

/* The tag: the lowest 128 bits, and the second half of the key. */
static void finish(u8 *tag, const u32 *h) {
  u32 word[4] = {h[0] | h[1] << 26, h[1] >> 6 | h[2] << 20, h[2] >> 12 | h[3] << 14, h[3] >> 18 | h[4] << 8};
  u64 carry = 0;
  for (int i = 0; i < 4; i++) {
    carry += (u64)word[i] + word_of(key + 16 + 4 * i);
    put_word(tag + 4 * i, carry);
    carry >>= 32;
  }
}

/* Puts out the tag. */
int main(void) {
  u32 h[5] = {0}, r[5];
  u8 tag[16];
  place_of(r);
  for (u32 at = 0; at < LENGTH; at += 16)
    take(h, r, message + at, LENGTH - at < 16 ? LENGTH - at : 16);
  reduce(h);
  finish(tag, h);
  return told(tag, sizeof tag);
}
