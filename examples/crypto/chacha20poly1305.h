/* ChaCha20 and Poly1305 (RFC 8439) for programs that use both, or the stream alone. chacha20.c and poly1305.c show them by themselves. */
#include "crypto.h"

/* A word turned to the left. */
static inline u32 turned(u32 word, int by) {
  return word << by | word >> (32 - by);
}

static inline void quarter(u32 *x, int a, int b, int c, int d) {
  x[a] += x[b], x[d] = turned(x[d] ^ x[a], 16);
  x[c] += x[d], x[b] = turned(x[b] ^ x[c], 12);
  x[a] += x[b], x[d] = turned(x[d] ^ x[a], 8);
  x[c] += x[d], x[b] = turned(x[b] ^ x[c], 7);
}

/* Twenty rounds, down the columns and down the diagonals by turns. */
static inline void rounds(u32 *x) {
  for (int twice = 0; twice < 10; twice++) {
    for (int i = 0; i < 4; i++)
      quarter(x, i, 4 + i, 8 + i, 12 + i);
    for (int i = 0; i < 4; i++)
      quarter(x, i, 4 + (i + 1) % 4, 8 + (i + 2) % 4, 12 + (i + 3) % 4);
  }
}

/* A block of the stream: 64 bytes. */
static inline void stream_block(u8 *block, const u8 *key, const u8 *nonce, u32 counter) {
  u32 state[16] = {0x61707865, 0x3320646e, 0x79622d32, 0x6b206574}, x[16];
  for (int i = 0; i < 8; i++)
    state[4 + i] = word_of(key + 4 * i);
  state[12] = counter;
  for (int i = 0; i < 3; i++)
    state[13 + i] = word_of(nonce + 4 * i);
  for (int i = 0; i < 16; i++)
    x[i] = state[i];
  rounds(x);
  for (int i = 0; i < 16; i++)
    put_word(block + 4 * i, x[i] + state[i]);
}

#define LIMB 0x3ffffffu

/* A polynomial's value so far and its place, in limbs of 26 bits, the lowest first; and what is added at the end. */
typedef struct {
  u32 value[5], place[5];
  u8 last[16];
} authenticator;

/* Sixteen bytes as limbs, with a word above them. */
static inline void limbs_of(u32 *limb, const u8 *bytes, u32 above) {
  u32 a = word_of(bytes), b = word_of(bytes + 4), c = word_of(bytes + 8), d = word_of(bytes + 12);
  limb[0] = a & LIMB;
  limb[1] = (a >> 26 | b << 6) & LIMB;
  limb[2] = (b >> 20 | c << 12) & LIMB;
  limb[3] = (c >> 14 | d << 18) & LIMB;
  limb[4] = d >> 8 | above << 24;
}

/* Begins with a key of 32 bytes: of its first half the standard clears some bits. */
static inline void authenticator_of(authenticator *to, const u8 *key) {
  u8 place[16];
  for (int i = 0; i < 16; i++) {
    place[i] = key[i] & (i % 4 == 3 ? 0x0f : i % 4 == 0 && i ? 0xfc : 0xff);
    to->last[i] = key[16 + i];
  }
  limbs_of(to->place, place, 0);
  for (int i = 0; i < 5; i++)
    to->value[i] = 0;
}

/* The product with the place. 2^130 counts 5. */
static inline void multiply_by_place(authenticator *to) {
  u64 sum[5] = {0}, carry = 0;
  for (int i = 0; i < 5; i++)
    for (int j = 0; j < 5; j++)
      sum[i] += (u64)to->value[j] * (j <= i ? to->place[i - j] : 5 * to->place[i - j + 5]);
  for (int i = 0; i < 5; i++) {
    carry += sum[i];
    to->value[i] = carry & LIMB;
    carry >>= 26;
  }
  carry = to->value[0] + 5 * carry;
  to->value[0] = carry & LIMB;
  to->value[1] += carry >> 26;
}

/* Takes bytes in blocks of sixteen, the last of them filled up with zeros, as this AEAD has it. */
static inline void authenticate(authenticator *to, const u8 *bytes, u32 count) {
  for (u32 at = 0; at < count; at += 16) {
    u8 block[16] = {0};
    u32 limb[5];
    for (u32 i = 0; i < 16 && at + i < count; i++)
      block[i] = bytes[at + i];
    limbs_of(limb, block, 1);
    for (int i = 0; i < 5; i++)
      to->value[i] += limb[i];
    multiply_by_place(to);
  }
}

/* Carries through all limbs, from this carry on, and answers what goes beyond 2^130. */
static inline u32 carried(u32 *limb, u32 carry) {
  for (int i = 0; i < 5; i++) {
    carry += limb[i];
    limb[i] = carry & LIMB;
    carry >>= 26;
  }
  return carry;
}

/* The tag: the value below 2^130 - 5, of which the lowest 128 bits and what is added at the end are. 5 more go beyond 2^130 exactly where the
   modulus has to go. */
static inline void tag_of(u8 *tag, authenticator *from) {
  u32 *h = from->value, more[5];
  h[0] += 5 * carried(h, 0);
  carried(h, 0);
  for (int i = 0; i < 5; i++)
    more[i] = h[i];
  u32 mask = mask_of(carried(more, 5));
  for (int i = 0; i < 5; i++)
    h[i] ^= (h[i] ^ more[i]) & mask;
  u32 word[4] = {h[0] | h[1] << 26, h[1] >> 6 | h[2] << 20, h[2] >> 12 | h[3] << 14, h[3] >> 18 | h[4] << 8};
  u64 carry = 0;
  for (int i = 0; i < 4; i++) {
    carry += (u64)word[i] + word_of(from->last + 4 * i);
    put_word(tag + 4 * i, carry);
    carry >>= 32;
  }
}
