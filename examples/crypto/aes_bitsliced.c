/* AES-128 (FIPS 197) by bits: word p of the state has bit p of each of the sixteen bytes, byte i in its bit i, so that the S-box is
   computed for all bytes at once and nothing is looked up. */
#include "crypto.h"

u8 key[16] = {0x00, 0x01, 0x02, 0x03, 0x04, 0x05, 0x06, 0x07, 0x08, 0x09, 0x0a, 0x0b, 0x0c, 0x0d, 0x0e, 0x0f};

/* Public: what is encrypted. */
static const u8 plain[16] = {0x00, 0x11, 0x22, 0x33, 0x44, 0x55, 0x66, 0x77, 0x88, 0x99, 0xaa, 0xbb, 0xcc, 0xdd, 0xee, 0xff};

/* Sixteen bytes, as words of bits. */
typedef struct {
  u32 bit[8];
} bits;

/* Bytes as words of bits. */
static void slice(bits *to, const u8 *bytes) {
  for (int p = 0; p < 8; p++) {
    to->bit[p] = 0;
    for (int i = 0; i < 16; i++)
      to->bit[p] |= (bytes[i] >> p & 1u) << i;
  }
}

/* Words of bits as bytes. */
static void join(u8 *bytes, const bits *from) {
  for (int i = 0; i < 16; i++) {
    bytes[i] = 0;
    for (int p = 0; p < 8; p++)
      bytes[i] |= (from->bit[p] >> i & 1) << p;
  }
}

/* A polynomial of degree 14 modulo x^8 + x^4 + x^3 + x + 1: the field of 256 elements. */
static void reduce(bits *to, u32 *product) {
  for (int p = 14; p >= 8; p--) {
    product[p - 4] ^= product[p];
    product[p - 5] ^= product[p];
    product[p - 7] ^= product[p];
    product[p - 8] ^= product[p];
  }
  for (int p = 0; p < 8; p++)
    to->bit[p] = product[p];
}

/* The product of two bytes in the field. */
static void multiply(bits *to, const bits *a, const bits *b) {
  u32 product[15] = {0};
  for (int p = 0; p < 8; p++)
    for (int q = 0; q < 8; q++)
      product[p + q] ^= a->bit[p] & b->bit[q];
  reduce(to, product);
}

/* The square, so many times. */
static void square(bits *to, const bits *a, int times) {
  *to = *a;
  for (; times; times--) {
    u32 product[15] = {0};
    for (int p = 0; p < 8; p++)
      product[2 * p] = to->bit[p];
    reduce(to, product);
  }
}

/* The power 254 in the field: the inverse, and 0 of 0. */
static void invert(bits *a) {
  bits two, three, twelve, fifteen;
  square(&two, a, 1);
  multiply(&three, &two, a);
  square(&twelve, &three, 2);
  multiply(&fifteen, &twelve, &three);
  square(&fifteen, &fifteen, 4);             /* 240 */
  multiply(&fifteen, &fifteen, &twelve);     /* 252 */
  multiply(a, &fifteen, &two);
}

/* Each byte through the S-box: inverted, then mapped by the standard's matrix and constant. */
static void substitute(bits *a) {
  bits b;
  invert(a);
  b = *a;
  for (int p = 0; p < 8; p++)
    a->bit[p] = b.bit[p] ^ b.bit[(p + 4) % 8] ^ b.bit[(p + 5) % 8] ^ b.bit[(p + 6) % 8] ^ b.bit[(p + 7) % 8] ^ (0x63 >> p & 1 ? 0xffff : 0);
}

/* Each row r turned by r columns: it has the bits r, 4 + r, 8 + r and 12 + r of a word. */
static void turn_rows(bits *a) {
  for (int p = 0; p < 8; p++) {
    u32 turned = 0;
    for (int r = 0; r < 4; r++) {
      u32 row = a->bit[p] & 0x1111u << r;
      turned |= (row >> 4 * r | row << (16 - 4 * r)) & 0xffff;
    }
    a->bit[p] = turned;
  }
}

/* In each column the byte below, and below the last the first. */
static u32 below(u32 word) {
  return (word >> 1 & 0x7777) | (word << 3 & 0x8888);
}

/* Twice each byte, in the field. */
static void twice(bits *a) {
  u32 high = a->bit[7];
  for (int p = 7; p > 0; p--)
    a->bit[p] = a->bit[p - 1];
  a->bit[0] = high;
  a->bit[1] ^= high;
  a->bit[3] ^= high;
  a->bit[4] ^= high;
}

/* Each column times the polynomial of the standard: with its next byte twice, and with the sum of the three others. */
static void mix(bits *a) {
  bits pairs, others;
  for (int p = 0; p < 8; p++) {
    u32 next = below(a->bit[p]);
    pairs.bit[p] = a->bit[p] ^ next;
    others.bit[p] = next ^ below(next) ^ below(below(next));
  }
  twice(&pairs);
  for (int p = 0; p < 8; p++)
    a->bit[p] = pairs.bit[p] ^ others.bit[p];
}

/* The next round's key, in the place of this one's: its last column, turned and substituted, goes into the first, and each column into
   the next. */
static void next_key(bits *round_key, u32 constant) {
  bits last = *round_key;
  substitute(&last);
  for (int p = 0; p < 8; p++) {
    u32 column = (below(last.bit[p]) >> 12) ^ (constant >> p & 1);
    u32 sums = round_key->bit[p];
    sums ^= sums << 4;
    sums ^= sums << 8;
    round_key->bit[p] = (sums ^ column * 0x1111) & 0xffff;
  }
}

/* A round's key into the state. */
static void add(bits *state, const bits *round_key) {
  for (int p = 0; p < 8; p++)
    state->bit[p] ^= round_key->bit[p];
}

/* Puts out the block that is encrypted: ten rounds, of which the last doesn't mix. */
int main(void) {
  static const u8 constant[10] = {0x01, 0x02, 0x04, 0x08, 0x10, 0x20, 0x40, 0x80, 0x1b, 0x36};
  bits state, round_key;
  u8 block[16];
  slice(&state, plain);
  slice(&round_key, key);
  add(&state, &round_key);
  for (int round = 0; round < 10; round++) {
    substitute(&state);
    turn_rows(&state);
    if (round < 9)
      mix(&state);
    next_key(&round_key, constant[round]);
    add(&state, &round_key);
  }
  join(block, &state);
  return told(block, sizeof block);
}
