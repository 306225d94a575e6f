/* X25519 (RFC 7748): the Montgomery ladder over the field of 2^255 - 19 elements, with swaps by masks. */
#include "field.h"

u8 secret[32] = {0xa5, 0x46, 0xe3, 0x6b, 0xf0, 0x52, 0x7c, 0x9d, 0x3b, 0x16, 0x15, 0x4b, 0x82, 0x46, 0x5e, 0xdd,
                 0x62, 0x14, 0x4c, 0x0a, 0xc1, 0xfc, 0x5a, 0x18, 0x50, 0x6a, 0x22, 0x44, 0xba, 0x44, 0x9a, 0xc4};

/* Public: the other side's point. */
static const u8 point[32] = {0xe6, 0xdb, 0x68, 0x67, 0x58, 0x30, 0x30, 0xdb, 0x35, 0x94, 0xc1, 0xa4, 0x24, 0xb1, 0x5f, 0x7c,
                             0x72, 0x66, 0x24, 0xec, 0x26, 0xb3, 0x35, 0x3b, 0x10, 0xa9, 0x03, 0xa6, 0xd0, 0xab, 0x1c, 0x4c};

/* Two points of the ladder, whose difference is always the first coordinate x. */
typedef struct {
  number x2, z2, x3, z3;
} points;

/* One step: the one is doubled, and the sum of both takes the other's place. */
static void step(points *p, const number *x) {
  static const number a24 = {{121665}};
  number sum2, difference2, sum3, difference3, e;
  add(&sum2, &p->x2, &p->z2);
  subtract(&difference2, &p->x2, &p->z2);
  add(&sum3, &p->x3, &p->z3);
  subtract(&difference3, &p->x3, &p->z3);
  multiply(&difference3, &difference3, &sum2);
  multiply(&sum3, &sum3, &difference2);
  multiply(&sum2, &sum2, &sum2);
  multiply(&difference2, &difference2, &difference2);
  add(&p->x3, &difference3, &sum3);
  multiply(&p->x3, &p->x3, &p->x3);
  subtract(&p->z3, &difference3, &sum3);
  multiply(&p->z3, &p->z3, &p->z3);
  multiply(&p->z3, &p->z3, x);
  multiply(&p->x2, &sum2, &difference2);
  subtract(&e, &sum2, &difference2);
  multiply(&p->z2, &e, &a24);
  add(&p->z2, &p->z2, &sum2);
  multiply(&p->z2, &p->z2, &e);
}

/* A bit of the secret, which is read as the standard says: a multiple of 8 with bit 254 as its highest. */
static u32 bit_of(int i) {
  return i < 3 ? 0 : i == 254 ? 1 : secret[i / 8] >> i % 8 & 1;
}

/* Puts out the first coordinate of the secret multiple of the point. */
int main(void) {
  number x;
  points p = {.x2 = {{1}}, .z3 = {{1}}};
  u8 bytes[32];
  for (int i = 0; i < 8; i++)
    x.word[i] = word_of(point + 4 * i);
  x.word[7] &= 0x7fffffff;
  p.x3 = x;
  for (int i = 254; i >= 0; i--) {
    u32 bit = bit_of(i);
    swap(&p.x2, &p.x3, bit);
    swap(&p.z2, &p.z3, bit);
    step(&p, &x);
    swap(&p.x2, &p.x3, bit);
    swap(&p.z2, &p.z3, bit);
  }
  invert(&p.z2, &p.z2);
  multiply(&p.x2, &p.x2, &p.z2);
  reduce(&p.x2);
  for (int i = 0; i < 8; i++)
    put_word(bytes + 4 * i, p.x2.word[i]);
  return told(bytes, sizeof bytes);
}
