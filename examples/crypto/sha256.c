/* SHA-256 (FIPS 180-4) of a secret message of 56 bytes, in two blocks. How long it is isn't secret. */
#include "crypto.h"

u8 secret[56] = {'a', 'b', 'c', 'd', 'b', 'c', 'd', 'e', 'c', 'd', 'e', 'f', 'd', 'e', 'f', 'g', 'e', 'f', 'g', 'h', 'f', 'g', 'h', 'i',
                 'g', 'h', 'i', 'j', 'h', 'i', 'j', 'k', 'i', 'j', 'k', 'l', 'j', 'k', 'l', 'm', 'k', 'l', 'm', 'n', 'l', 'm', 'n', 'o',
                 'm', 'n', 'o', 'p', 'n', 'o', 'p', 'q'};

/* Fractions of the cube roots of the first 64 primes. */
static const u32 root[64] = {
    0x428a2f98, 0x71374491, 0xb5c0fbcf, 0xe9b5dba5, 0x3956c25b, 0x59f111f1, 0x923f82a4, 0xab1c5ed5,
    0xd807aa98, 0x12835b01, 0x243185be, 0x550c7dc3, 0x72be5d74, 0x80deb1fe, 0x9bdc06a7, 0xc19bf174,
    0xe49b69c1, 0xefbe4786, 0x0fc19dc6, 0x240ca1cc, 0x2de92c6f, 0x4a7484aa, 0x5cb0a9dc, 0x76f988da,
    0x983e5152, 0xa831c66d, 0xb00327c8, 0xbf597fc7, 0xc6e00bf3, 0xd5a79147, 0x06ca6351, 0x14292967,
    0x27b70a85, 0x2e1b2138, 0x4d2c6dfc, 0x53380d13, 0x650a7354, 0x766a0abb, 0x81c2c92e, 0x92722c85,
    0xa2bfe8a1, 0xa81a664b, 0xc24b8b70, 0xc76c51a3, 0xd192e819, 0xd6990624, 0xf40e3585, 0x106aa070,
    0x19a4c116, 0x1e376c08, 0x2748774c, 0x34b0bcb5, 0x391c0cb3, 0x4ed8aa4a, 0x5b9cca4f, 0x682e6ff3,
    0x748f82ee, 0x78a5636f, 0x84c87814, 0x8cc70208, 0x90befffa, 0xa4506ceb, 0xbef9a3f7, 0xc67178f2,
};

/* A word turned to the right. */
static u32 turned(u32 word, int by) {
  return word >> by | word << (32 - by);
}

/* The 64 words that a block gives: its own sixteen, the highest byte first, and those that are mixed of them. */
static void schedule(u32 *w, const u8 *block) {
  for (int t = 0; t < 16; t++)
    w[t] = (u32)block[4 * t] << 24 | (u32)block[4 * t + 1] << 16 | (u32)block[4 * t + 2] << 8 | block[4 * t + 3];
  for (int t = 16; t < 64; t++) {
    u32 early = w[t - 15], late = w[t - 2];
    w[t] = w[t - 16] + w[t - 7] + (turned(early, 7) ^ turned(early, 18) ^ early >> 3) + (turned(late, 17) ^ turned(late, 19) ^ late >> 10);
  }
}

/* Takes a block into the hash. */
static void take(u32 *hash, const u8 *block) {
  u32 w[64], a = hash[0], b = hash[1], c = hash[2], d = hash[3], e = hash[4], f = hash[5], g = hash[6], h = hash[7];
  schedule(w, block);
  for (int t = 0; t < 64; t++) {
    u32 one = h + (turned(e, 6) ^ turned(e, 11) ^ turned(e, 25)) + ((e & f) ^ (~e & g)) + root[t] + w[t];
    u32 two = (turned(a, 2) ^ turned(a, 13) ^ turned(a, 22)) + ((a & b) ^ (a & c) ^ (b & c));
    h = g, g = f, f = e, e = d + one;
    d = c, c = b, b = a, a = one + two;
  }
  hash[0] += a, hash[1] += b, hash[2] += c, hash[3] += d;
  hash[4] += e, hash[5] += f, hash[6] += g, hash[7] += h;
}

/* Puts out the hash: the message is padded by a one, by zeros and by its length in bits. */
int main(void) {
  /* fractions of the square roots of the first eight primes */
  u32 hash[8] = {0x6a09e667, 0xbb67ae85, 0x3c6ef372, 0xa54ff53a, 0x510e527f, 0x9b05688c, 0x1f83d9ab, 0x5be0cd19};
  u8 padded[128] = {0}, bytes[32];
  for (u32 i = 0; i < sizeof secret; i++)
    padded[i] = secret[i];
  padded[sizeof secret] = 0x80;
  padded[126] = sizeof secret * 8 >> 8;
  padded[127] = sizeof secret * 8 & 0xff;
  take(hash, padded);
  take(hash, padded + 64);
  for (int i = 0; i < 32; i++)
    bytes[i] = hash[i / 4] >> (24 - i % 4 * 8);
  return told(bytes, sizeof bytes);
}
