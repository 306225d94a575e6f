/* The field of 2^255 - 19 elements, for x25519.c and ed25519.c. Numbers have eight words of 32 bits, the lowest first. They are kept modulo
   2^256 - 38, twice the field's modulus, so that 2^256 counts as 38; only a result is brought below the modulus itself. */
#include "crypto.h"

/* A number below 2^256. */
typedef struct {
  u32 word[8];
} number;

/* Adds a small number, and answers the carry out of the highest word. */
static u32 increase(number *a, u32 by) {
  for (int i = 0; i < 8; i++) {
    u64 sum = (u64)a->word[i] + by;
    a->word[i] = sum;
    by = sum >> 32;
  }
  return by;
}

/* Takes a small number away, and answers the borrow of the highest word. */
static u32 decrease(number *a, u32 by) {
  for (int i = 0; i < 8; i++) {
    u64 rest = (u64)a->word[i] - by;
    a->word[i] = rest;
    by = rest >> 63;
  }
  return by;
}

/* The sum. Where 38 carries out once more what is left is small, so its lowest word has room. */
static void add(number *to, const number *a, const number *b) {
  u64 carry = 0;
  for (int i = 0; i < 8; i++) {
    carry += (u64)a->word[i] + b->word[i];
    to->word[i] = carry;
    carry >>= 32;
  }
  to->word[0] += 38 * increase(to, 38 * (u32)carry);
}

/* The difference. Where 38 borrows once more what is left is near 2^256, so its lowest word has 38. */
static void subtract(number *to, const number *a, const number *b) {
  u32 borrow = 0;
  for (int i = 0; i < 8; i++) {
    u64 rest = (u64)a->word[i] - b->word[i] - borrow;
    to->word[i] = rest;
    borrow = rest >> 63;
  }
  to->word[0] -= 38 * decrease(to, 38 * borrow);
}

/* Brings a product of sixteen words into eight: the higher eight count 38 times. */
static void fold(number *to, const u32 *product) {
  u64 carry = 0;
  for (int i = 0; i < 8; i++) {
    carry += (u64)product[i + 8] * 38 + product[i];
    to->word[i] = carry;
    carry >>= 32;
  }
  to->word[0] += 38 * increase(to, 38 * (u32)carry);
}

/* The product. */
static void multiply(number *to, const number *a, const number *b) {
  u32 product[16] = {0};
  for (int i = 0; i < 8; i++) {
    u64 carry = 0;
    for (int j = 0; j < 8; j++) {
      carry += (u64)a->word[i] * b->word[j] + product[i + j];
      product[i + j] = carry;
      carry >>= 32;
    }
    product[i + 8] = carry;
  }
  fold(to, product);
}

/* The inverse: the power 2^255 - 21, whose digits are public. */
static void invert(number *to, const number *a) {
  static const u32 exponent[8] = {0xffffffeb, 0xffffffff, 0xffffffff, 0xffffffff, 0xffffffff, 0xffffffff, 0xffffffff, 0x7fffffff};
  number power = {{1}};
  for (int i = 254; i >= 0; i--) {
    multiply(&power, &power, &power);
    if (exponent[i / 32] >> i % 32 & 1)
      multiply(&power, &power, a);
  }
  *to = power;
}

/* Swaps two numbers where the bit is 1. */
__attribute__((unused)) static void swap(number *a, number *b, u32 bit) {
  for (int i = 0; i < 8; i++) {
    u32 both = (a->word[i] ^ b->word[i]) & -bit;
    a->word[i] ^= both;
    b->word[i] ^= both;
  }
}

/* The highest bit of a number. The empty instruction keeps from the compiler that it is a sign: clang makes a branch of that. */
static u32 highest(const number *a) {
  u32 bit = a->word[7] >> 31;
  asm("" : "+r"(bit));
  return bit;
}

/* Brings a number below 2^255 - 19: bit 255 counts 19, and with 19 more a number reaches that bit exactly where the modulus has to go. */
static void reduce(number *a) {
  number more;
  u32 high = highest(a);
  a->word[7] &= 0x7fffffff;
  increase(a, 19 * high);
  more = *a;
  increase(&more, 19);
  increase(a, 19 * highest(&more));
  a->word[7] &= 0x7fffffff;
}
