/* A power with a secret exponent, by a Montgomery ladder: for each bit of the exponent one product and one square, of two numbers that are
   swapped by a mask and not by a branch. gcc leaves it so; clang sees that the mask is one of two and makes a branch of it. The modulus is
   2^31 - 1 and the base 16807: the powers are the numbers of the generator minstd_rand0 of C++. */
#include "crypto.h"

u32 secret = 10000;

#define MODULUS 0x7fffffffu

/* Public: what is raised to that power. */
static const u32 base = 16807;

/* The product modulo 2^31 - 1, of numbers up to the modulus: 2^31 counts 1. */
static u32 product(u32 a, u32 b) {
  u64 all = (u64)a * b;
  u32 sum = (u32)(all & MODULUS) + (u32)(all >> 31);
  return (sum & MODULUS) + (sum >> 31);
}

/* Swaps two numbers where a bit is set, whichever it is. */
static void swap(u32 *a, u32 *b, u32 bit) {
  u32 mask = -(u32)(bit != 0);
  u32 both = (*a ^ *b) & mask;
  *a ^= both;
  *b ^= both;
}

/* The power of the base. The second number is always the first times the base. */
__attribute__((noinline)) static u32 power(u32 exponent) {
  u32 first = 1, second = base;
  for (u32 bit = 1u << 31; bit; bit >>= 1) {
    swap(&first, &second, exponent & bit);
    second = product(first, second);
    first = product(first, first);
    swap(&first, &second, exponent & bit);
  }
  return first;
}

/* Puts out the power, the highest byte first. */
int main(void) {
  u32 number = power(secret);
  u8 bytes[4] = {number >> 24, number >> 16, number >> 8, number};
  return told(bytes, sizeof bytes);
}
