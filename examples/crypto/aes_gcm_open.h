/* A message of AES-128-GCM that comes from outside, and what opens it (NIST SP 800-38D): the fourth test case of McGrew and Viega, "The
   Galois/Counter Mode of Operation". The S-box is computed for four bytes at once, and the hash bit by bit, so that nothing is looked up. The
   comparison of the tags has no branch, its verdict is made public, and only then a branch is made of it. aes_gcm_open.c has the key of the
   test case, aes_gcm_refuse.c another one. */
#include "crypto.h"
#include "publish.h"

/* Public: all that comes with the message. */
static const u8 nonce[12] = {0xca, 0xfe, 0xba, 0xbe, 0xfa, 0xce, 0xdb, 0xad, 0xde, 0xca, 0xf8, 0x88};
static const u8 beside[20] = {0xfe, 0xed, 0xfa, 0xce, 0xde, 0xad, 0xbe, 0xef, 0xfe, 0xed, 0xfa, 0xce, 0xde, 0xad, 0xbe, 0xef, 0xab, 0xad, 0xda, 0xd2};
static const u8 sealed[60] = {0x42, 0x83, 0x1e, 0xc2, 0x21, 0x77, 0x74, 0x24, 0x4b, 0x72, 0x21, 0xb7, 0x84, 0xd0, 0xd4, 0x9c, 0xe3, 0xaa, 0x21, 0x2f,
                              0x2c, 0x02, 0xa4, 0xe0, 0x35, 0xc1, 0x7e, 0x23, 0x29, 0xac, 0xa1, 0x2e, 0x21, 0xd5, 0x14, 0xb2, 0x54, 0x66, 0x93, 0x1c,
                              0x7d, 0x8f, 0x6a, 0x5a, 0xac, 0x84, 0xaa, 0x05, 0x1b, 0xa3, 0x0b, 0x39, 0x6a, 0x0a, 0xac, 0x97, 0x3d, 0x58, 0xe0, 0x91};
static const u8 tag[16] = {0x5b, 0xc9, 0x4f, 0xbc, 0x32, 0x21, 0xa5, 0xdb, 0x94, 0xfa, 0xe9, 0x5a, 0xe7, 0x12, 0x1a, 0x47};

#define EACH 0x01010101u /* of each of the four bytes of a word the lowest bit */

/* Each byte twice, in the field of 256 elements. */
static u32 twice(u32 x) {
  return (x << 1 & ~EACH) ^ (x >> 7 & EACH) * 0x1b;
}

/* The products of four bytes with four others, in the field. */
static u32 products(u32 x, u32 y) {
  u32 sum = 0;
  for (int i = 0; i < 8; i++) {
    sum ^= x & (y >> i & EACH) * 0xff;
    x = twice(x);
  }
  return sum;
}

/* Each byte turned to the left. */
static u32 each_turned(u32 x, int by) {
  u32 high = EACH * (0xff >> by << by);
  return (x << by & high) | (x >> (8 - by) & ~high);
}

/* Each byte through the S-box: the power 254, which is the inverse, and 0 of 0; then the standard's matrix and constant. */
static u32 substituted(u32 x) {
  u32 power = x;
  for (int i = 0; i < 6; i++)
    power = products(products(power, power), x);
  power = products(power, power);
  return power ^ each_turned(power, 1) ^ each_turned(power, 2) ^ each_turned(power, 3) ^ each_turned(power, 4) ^ EACH * 0x63;
}

/* A word turned to the right by bytes: the byte below comes first. */
static u32 word_turned(u32 x, int bytes) {
  return x >> 8 * bytes | x << (32 - 8 * bytes);
}

/* The eleven keys of the rounds, four columns each. */
static void round_keys(u32 *column, const u8 *key) {
  u32 constant = 1;
  for (int i = 0; i < 4; i++)
    column[i] = word_of(key + 4 * i);
  for (int i = 4; i < 44; i++) {
    u32 last = column[i - 1];
    if (i % 4 == 0) {
      last = substituted(word_turned(last, 1)) ^ constant;
      constant = twice(constant);
    }
    column[i] = column[i - 4] ^ last;
  }
}

/* One round without its key: bytes are substituted, rows turned and, but in the last round, columns mixed. */
static void one_round(u32 *state, int is_last) {
  u32 from[4];
  for (int i = 0; i < 4; i++)
    from[i] = substituted(state[i]);
  for (int i = 0; i < 4; i++) {
    u32 x = 0;
    for (int row = 0; row < 4; row++)
      x |= from[(i + row) % 4] & 0xffu << 8 * row;
    u32 pairs = x ^ word_turned(x, 1);
    state[i] = is_last ? x : twice(pairs) ^ word_turned(x, 1) ^ word_turned(pairs, 2);
  }
}

/* A block, encrypted. */
static void encrypt(u8 *to, const u8 *block, const u32 *column) {
  u32 state[4];
  for (int i = 0; i < 4; i++)
    state[i] = word_of(block + 4 * i) ^ column[i];
  for (int round = 1; round <= 10; round++) {
    one_round(state, round == 10);
    for (int i = 0; i < 4; i++)
      state[i] ^= column[4 * round + i];
  }
  for (int i = 0; i < 4; i++)
    put_word(to + 4 * i, state[i]);
}

/* The block that a counter makes, encrypted. */
static void encrypt_counter(u8 *to, u8 counter, const u32 *column) {
  u8 block[16] = {0};
  for (int i = 0; i < 12; i++)
    block[i] = nonce[i];
  block[15] = counter;
  encrypt(to, block, column);
}

/* Four bytes as a word, the highest first: the hash counts bits from there. */
static u32 high_word_of(const u8 *bytes) {
  return (u32)bytes[0] << 24 | (u32)bytes[1] << 16 | (u32)bytes[2] << 8 | bytes[3];
}

/* The product with the hash's place in the field of 2^128 elements, in the place of a number. */
static void multiply(u32 *value, const u32 *place) {
  u32 sum[4] = {0}, x[4];
  for (int i = 0; i < 4; i++)
    x[i] = place[i];
  for (int bit = 0; bit < 128; bit++) {
    u32 mask = mask_of(value[bit / 32] >> (31 - bit % 32) & 1), out = mask_of(x[3] & 1);
    for (int i = 0; i < 4; i++)
      sum[i] ^= x[i] & mask;
    for (int i = 3; i > 0; i--)
      x[i] = x[i] >> 1 | x[i - 1] << 31;
    x[0] = x[0] >> 1 ^ (out & 0xe1000000);
  }
  for (int i = 0; i < 4; i++)
    value[i] = sum[i];
}

/* Takes bytes into the hash in blocks of sixteen, the last of them filled up with zeros. */
static void take(u32 *value, const u32 *place, const u8 *bytes, u32 count) {
  for (u32 at = 0; at < count; at += 16) {
    u8 block[16] = {0};
    for (u32 i = 0; i < 16 && at + i < count; i++)
      block[i] = bytes[at + i];
    for (int i = 0; i < 4; i++)
      value[i] ^= high_word_of(block + 4 * i);
    multiply(value, place);
  }
}

/* 1 where the message's tag is the one that the key makes, else 0. */
static u32 is_right(const u32 *column) {
  static const u8 zeros[16], lengths[16] = {[7] = 8 * sizeof beside, [14] = 8 * sizeof sealed >> 8, [15] = 8 * sizeof sealed & 0xff};
  u8 made[16];
  u32 value[4] = {0}, place[4];
  encrypt(made, zeros, column);
  for (int i = 0; i < 4; i++)
    place[i] = high_word_of(made + 4 * i);
  take(value, place, beside, sizeof beside);
  take(value, place, sealed, sizeof sealed);
  take(value, place, lengths, sizeof lengths);
  encrypt_counter(made, 1, column);
  for (int i = 0; i < 16; i++)
    made[i] ^= value[i / 4] >> (24 - i % 4 * 8);
  return are_equal(made, tag, sizeof tag);
}

/* Opens the message: the text is put out where the tag is right, and what is answered is whether it isn't. */
static inline int opened(const u8 *key) {
  u32 column[44];
  u8 text[sizeof sealed], block[16];
  round_keys(column, key);
  u32 right = is_right(column);
  publish(&right, sizeof right);
  if (!right)
    return 1;
  for (u32 at = 0; at < sizeof sealed; at++) {
    if (at % 16 == 0)
      encrypt_counter(block, 2 + at / 16, column);
    text[at] = sealed[at] ^ block[at % 16];
  }
  return told(text, sizeof text);
}
