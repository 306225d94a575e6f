/* Ed25519, a signature (RFC 8032, 5.1.6), with SHA-512. Points have four coordinates, so that one formula adds any two, equal ones and the
   neutral one among them; of a table all rows are looked at. Nothing is published. */
#include "field.h"
#include "sha512.h"

/* RFC 8032, 7.1, TEST 2. */
u8 secret[32] = {0x4c, 0xcd, 0x08, 0x9b, 0x28, 0xff, 0x96, 0xda, 0x9d, 0xb6, 0xc3, 0x46, 0xec, 0x11, 0x4e, 0x0f,
                 0x5b, 0x8a, 0x31, 0x9f, 0x35, 0xab, 0xa6, 0x24, 0xda, 0x8c, 0xf6, 0xed, 0x4f, 0xb8, 0xa6, 0xfb};

/* Public: the public key that belongs to it, and the message. */
static const u8 public_key[32] = {0x3d, 0x40, 0x17, 0xc3, 0xe8, 0x43, 0x89, 0x5a, 0x92, 0xb7, 0x0a, 0xa7, 0x4d, 0x1b, 0x7e, 0xbc,
                                  0x9c, 0x98, 0x2c, 0xcf, 0x2e, 0xc4, 0x96, 0x8c, 0xc0, 0xcd, 0x55, 0xf1, 0x2a, 0xf4, 0x66, 0x0c};
static const u8 message[1] = {0x72};

/* x = X / Z, y = Y / Z, and x y = T / Z. */
typedef struct {
  number x, y, z, t;
} point;

/* Twice a number, which may be the same. A number added to itself would do, but clang sees that the carry is a sign then, and makes a branch of
   it. */
static void twice(number *to, const number *a) {
  u32 carry = highest(a);
  for (int i = 7; i > 0; i--)
    to->word[i] = a->word[i] << 1 | a->word[i - 1] >> 31;
  to->word[0] = a->word[0] << 1;
  to->word[0] += 38 * increase(to, 38 * carry);
}

/* The sum of two points, which may be the same. */
static void add_points(point *to, const point *p, const point *q) {
  static const number twice_d = {{0x26b2f159, 0xebd69b94, 0x8283b156, 0x00e0149a, 0xeef3d130, 0x198e80f2, 0x56dffce7, 0x2406d9dc}};
  number a, b, c, d, other;
  subtract(&a, &p->y, &p->x);
  subtract(&other, &q->y, &q->x);
  multiply(&a, &a, &other);
  add(&b, &p->y, &p->x);
  add(&other, &q->y, &q->x);
  multiply(&b, &b, &other);
  multiply(&c, &p->t, &q->t);
  multiply(&c, &c, &twice_d);
  multiply(&d, &p->z, &q->z);
  twice(&d, &d);
  subtract(&other, &b, &a);
  add(&a, &b, &a);
  add(&b, &d, &c);
  subtract(&d, &d, &c);
  multiply(&to->x, &other, &d);
  multiply(&to->y, &b, &a);
  multiply(&to->z, &d, &b);
  multiply(&to->t, &other, &a);
}

/* The neutral point, and the base point with all its multiples up to fifteen. */
static void multiples_of_base(point *multiple) {
  static const point neutral = {.y = {{1}}, .z = {{1}}};
  static const point base = {.x = {{0x8f25d51a, 0xc9562d60, 0x9525a7b2, 0x692cc760, 0xfdd6dc5c, 0xc0a4e231, 0xcd6e53fe, 0x216936d3}},
                             .y = {{0x66666658, 0x66666666, 0x66666666, 0x66666666, 0x66666666, 0x66666666, 0x66666666, 0x66666666}},
                             .z = {{1}},
                             .t = {{0xa5b7dda3, 0x6dde8ab3, 0x775152f5, 0x20f09f80, 0x64abe37d, 0x66ea4e8e, 0xd78b7665, 0x67875f0f}}};
  multiple[0] = neutral;
  for (int i = 1; i < 16; i++)
    add_points(&multiple[i], &multiple[i - 1], &base);
}

/* Into a number goes another where the mask is all ones. */
static void choose(number *to, const number *from, u32 mask) {
  for (int i = 0; i < 8; i++)
    to->word[i] |= from->word[i] & mask;
}

/* One of sixteen points, by a secret number: all are looked at. */
static void look_up(point *to, const point *multiple, u32 number_of_it) {
  static const point empty;
  *to = empty;
  for (u32 i = 0; i < 16; i++) {
    u32 mask = mask_of(((i ^ number_of_it) - 1) >> 31);
    choose(&to->x, &multiple[i].x, mask);
    choose(&to->y, &multiple[i].y, mask);
    choose(&to->z, &multiple[i].z, mask);
    choose(&to->t, &multiple[i].t, mask);
  }
}

/* So many times the base point, as 32 bytes: y, and with it the lowest bit of x. Four bits at a time, the highest first. */
static void multiply_base(u8 *bytes, const u8 *times) {
  point multiple[16], sum, one;
  multiples_of_base(multiple);
  sum = multiple[0];
  for (int i = 63; i >= 0; i--) {
    for (int twice = 0; twice < 4; twice++)
      add_points(&sum, &sum, &sum);
    look_up(&one, multiple, times[i / 2] >> i % 2 * 4 & 15);
    add_points(&sum, &sum, &one);
  }
  invert(&sum.z, &sum.z);
  multiply(&sum.x, &sum.x, &sum.z);
  multiply(&sum.y, &sum.y, &sum.z);
  reduce(&sum.x);
  reduce(&sum.y);
  for (int i = 0; i < 8; i++)
    put_word(bytes + 4 * i, sum.y.word[i]);
  bytes[31] |= sum.x.word[0] << 7;
}

/* Takes the order of the base point away where a number reaches it. */
static void less_order(number *a) {
  static const number order = {{0x5cf5d3ed, 0x5812631a, 0xa2f79cd6, 0x14def9de, 0, 0, 0, 0x10000000}};
  number rest;
  u32 borrow = 0;
  for (int i = 0; i < 8; i++) {
    u64 difference = (u64)a->word[i] - order.word[i] - borrow;
    rest.word[i] = difference;
    borrow = difference >> 63;
  }
  u32 mask = mask_of(borrow);
  for (int i = 0; i < 8; i++)
    a->word[i] = rest.word[i] ^ ((rest.word[i] ^ a->word[i]) & mask);
}

/* Sixteen words modulo the order: what is left so far is doubled, takes the next bit, and stays below the order. */
static void modulo_order(number *to, const u32 *word) {
  static const number zero;
  *to = zero;
  for (int i = 511; i >= 0; i--) {
    u32 bit = word[i / 32] >> i % 32 & 1;
    for (int j = 0; j < 8; j++) {
      u32 next = to->word[j] >> 31;
      to->word[j] = to->word[j] << 1 | bit;
      bit = next;
    }
    less_order(to);
  }
}

/* A hash of up to three parts modulo the order. */
static void hash_of(number *to, const u8 *first, const u8 *second, const u8 *third) {
  sha512 hash;
  u8 bytes[64];
  u32 word[16];
  begin_hash(&hash);
  take_bytes(&hash, first, 32);
  if (second)
    take_bytes(&hash, second, 32);
  take_bytes(&hash, third, sizeof message);
  end_hash(bytes, &hash);
  for (int i = 0; i < 16; i++)
    word[i] = word_of(bytes + 4 * i);
  modulo_order(to, word);
}

/* a b + c modulo the order. */
static void product_and_sum(number *to, const number *a, const number *b, const number *c) {
  u32 word[16] = {0};
  for (int i = 0; i < 8; i++)
    word[i] = c->word[i];
  for (int i = 0; i < 8; i++) {
    u64 carry = 0;
    for (int j = 0; j < 8; j++) {
      carry += (u64)a->word[i] * b->word[j] + word[i + j];
      word[i + j] = carry;
      carry >>= 32;
    }
    word[i + 8] = carry;
  }
  modulo_order(to, word);
}

/* A number as 32 bytes. */
static void bytes_of(u8 *bytes, const number *a) {
  for (int i = 0; i < 8; i++)
    put_word(bytes + 4 * i, a->word[i]);
}

/* Puts out the signature. The secret is hashed to two halves: the one, with some bits set and cleared, is the number that the public key has
   the base point so often as; the other makes the number r, which hides it. */
int main(void) {
  sha512 hash;
  u8 halves[64], signature[64], r_bytes[32];
  number r, k, s;
  begin_hash(&hash);
  take_bytes(&hash, secret, sizeof secret);
  end_hash(halves, &hash);
  halves[0] &= 0xf8;
  halves[31] = (halves[31] & 0x7f) | 0x40;
  hash_of(&r, halves + 32, 0, message);
  bytes_of(r_bytes, &r);
  multiply_base(signature, r_bytes);
  hash_of(&k, signature, public_key, message);
  for (int i = 0; i < 8; i++)
    s.word[i] = word_of(halves + 4 * i);
  product_and_sum(&s, &k, &s, &r);
  bytes_of(signature + 32, &s);
  return told(signature, sizeof signature);
}
