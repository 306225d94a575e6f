/* ML-KEM-768 (FIPS 203). Numbers are below the modulus 3329, but for those of which is said how large they get. Nothing secret is divided,
   looked up or branched on: a quotient is a product with a constant. tests/mlkem.py has the standard's algorithms one by one. */
#include "keccak.h"
#include "publish.h"

#define MODULUS 3329u
#define RANK 3
#define DU 10
#define DV 4
#define POLYNOMIAL 384 /* bytes of 256 numbers of twelve bits */
#define SECRET (RANK * POLYNOMIAL)
#define PUBLIC (SECRET + 32)
#define CIPHERTEXT (32 * (DU * RANK + DV))

/* 256 numbers: coefficients, or values. */
typedef struct {
  unsigned short at[256];
} polynomial;

/* x / 3329 for x below 2^28: 330282857 / 2^40 is so near to 1 / 3329 that the whole part is right. */
static inline u32 quotient(u32 x) {
  return (u64)x * 330282857 >> 40;
}

/* The quotient where a message and where a ciphertext is made. kyberslash_message.c and kyberslash_ciphertext.c divide there. */
#ifndef MESSAGE_QUOTIENT
#define MESSAGE_QUOTIENT quotient
#endif
#ifndef CIPHERTEXT_QUOTIENT
#define CIPHERTEXT_QUOTIENT quotient
#endif

/* The remainder, for x below 2^28. */
static inline u32 reduced(u32 x) {
  return x - quotient(x) * MODULUS;
}

/* Powers of 17, a root of unity: of the number with the seven bits of a place the other way round. */
static const unsigned short zeta[128] = {
    1, 1729, 2580, 3289, 2642, 630, 1897, 848, 1062, 1919, 193, 797, 2786, 3260, 569, 1746,
    296, 2447, 1339, 1476, 3046, 56, 2240, 1333, 1426, 2094, 535, 2882, 2393, 2879, 1974, 821,
    289, 331, 3253, 1756, 1197, 2304, 2277, 2055, 650, 1977, 2513, 632, 2865, 33, 1320, 1915,
    2319, 1435, 807, 452, 1438, 2868, 1534, 2402, 2647, 2617, 1481, 648, 2474, 3110, 1227, 910,
    17, 2761, 583, 2649, 1637, 723, 2288, 1100, 1409, 2662, 3281, 233, 756, 2156, 3015, 3050,
    1703, 1651, 2789, 1789, 1847, 952, 1461, 2687, 939, 2308, 2437, 2388, 733, 2337, 268, 641,
    1584, 2298, 2037, 3220, 375, 2549, 2090, 1645, 1063, 319, 2773, 757, 2099, 561, 2466, 2594,
    2804, 1092, 403, 1026, 1143, 2150, 2775, 886, 1722, 1212, 1874, 1029, 2110, 2935, 885, 2154,
};

/* The number-theoretic transform: values of a polynomial. */
static inline void transform(polynomial *f) {
  u32 place = 1;
  for (u32 length = 128; length >= 2; length /= 2)
    for (u32 start = 0; start < 256; start += 2 * length, place++)
      for (u32 i = start; i < start + length; i++) {
        u32 product = reduced(f->at[i + length] * zeta[place]);
        f->at[i + length] = reduced(f->at[i] + MODULUS - product);
        f->at[i] = reduced(f->at[i] + product);
      }
}

/* Its inverse: the polynomial of values. 3303 is the inverse of 128. */
static inline void transform_back(polynomial *f) {
  u32 place = 127;
  for (u32 length = 2; length <= 128; length *= 2)
    for (u32 start = 0; start < 256; start += 2 * length, place--)
      for (u32 i = start; i < start + length; i++) {
        u32 first = f->at[i], second = f->at[i + length];
        f->at[i] = reduced(first + second);
        f->at[i + length] = reduced((second + MODULUS - first) * zeta[place]);
      }
  for (int i = 0; i < 256; i++)
    f->at[i] = reduced(f->at[i] * 3303u);
}

/* The sum of the products of three polynomials with three others, by their values. No sum reaches 2^28, also where some are up to 4095. */
static inline void multiply(polynomial *to, const polynomial *f, const polynomial *g) {
  for (u32 i = 0; i < 256; i += 2) {
    u32 even = 0, odd = 0, gamma = i % 4 ? MODULUS - zeta[64 + i / 4] : zeta[64 + i / 4];
    for (int k = 0; k < RANK; k++) {
      u32 a = f[k].at[i], b = f[k].at[i + 1], c = g[k].at[i], d = g[k].at[i + 1];
      even += a * c + reduced(b * d) * gamma;
      odd += a * d + b * c;
    }
    to->at[i] = reduced(even);
    to->at[i + 1] = reduced(odd);
  }
}

/* Adds a polynomial. */
static inline void add(polynomial *to, const polynomial *f) {
  for (int i = 0; i < 256; i++)
    to->at[i] = reduced(to->at[i] + f->at[i]);
}

/* Numbers of so many bits as bytes. */
static inline void encode(u8 *bytes, const polynomial *f, u32 width) {
  u32 kept = 0, bits = 0;
  for (int i = 0; i < 256; i++) {
    kept |= (u32)f->at[i] << bits;
    for (bits += width; bits >= 8; bits -= 8) {
      *bytes++ = kept;
      kept >>= 8;
    }
  }
}

/* Bytes as numbers of so many bits. */
static inline void decode(polynomial *f, const u8 *bytes, u32 width) {
  u32 kept = 0, bits = 0;
  for (int i = 0; i < 256; i++) {
    for (; bits < width; bits += 8)
      kept |= (u32)*bytes++ << bits;
    f->at[i] = kept & ((1u << width) - 1);
    kept >>= width;
    bits -= width;
  }
}

/* To the nearest number of so many bits. */
static inline void compress_message(polynomial *f) {
  for (int i = 0; i < 256; i++)
    f->at[i] = MESSAGE_QUOTIENT(2u * f->at[i] + MODULUS / 2) & 1;
}

static inline void compress_ciphertext(polynomial *f, u32 width) {
  for (int i = 0; i < 256; i++)
    f->at[i] = CIPHERTEXT_QUOTIENT(((u32)f->at[i] << width) + MODULUS / 2) & ((1u << width) - 1);
}

/* Back, to the nearest number below the modulus. */
static inline void decompress(polynomial *f, u32 width) {
  for (int i = 0; i < 256; i++)
    f->at[i] = (f->at[i] * MODULUS + (1u << width) / 2) >> width;
}

/* An element of the matrix, by rejection: its seed has to be public, since each candidate's number decides a branch. */
static inline void draw_element(polynomial *f, const u8 *rho, u8 row, u8 column) {
  const u8 place[2] = {column, row};
  u8 bytes[3];
  sponge stream;
  begin(&stream, 168);
  absorb(&stream, rho, 32);
  absorb(&stream, place, 2);
  pad(&stream, 31);
  for (u32 have = 0; have < 256;) {
    squeeze(bytes, 3, &stream);
    u32 first = bytes[0] | (bytes[1] & 15) << 8, second = bytes[1] >> 4 | bytes[2] << 4;
    if (first < MODULUS)
      f->at[have++] = first;
    if (second < MODULUS && have < 256)
      f->at[have++] = second;
  }
}

/* Small numbers, each the difference of two sums of two bits, of a secret seed and a count. */
static inline void draw_noise(polynomial *f, const u8 *seed, u8 count) {
  u8 bytes[128];
  SHAKE256(bytes, sizeof bytes, seed, &count, 32, 1);
  for (int i = 0; i < 256; i++) {
    u32 bits = bytes[i / 2] >> 4 * (i % 2);
    f->at[i] = reduced(MODULUS + (bits & 1) + (bits >> 1 & 1) - (bits >> 2 & 1) - (bits >> 3 & 1));
  }
}

/* A row of the matrix, or a column of it. */
static inline void draw_row(polynomial *to, const u8 *rho, u8 row, int is_column) {
  for (u8 i = 0; i < RANK; i++)
    draw_element(&to[i], rho, is_column ? i : row, is_column ? row : i);
}

/* K-PKE.KeyGen: the public part and the secret part of a pair, of 32 secret bytes. The seed of the matrix is part of the public key: it is
   published, and then the matrix is drawn of it. */
static inline void pair_of(u8 *public, u8 *secret, const u8 *drawn) {
  static const u8 rank = RANK;
  u8 seeds[64];
  polynomial row[RANK], s[RANK], t, error;
  SHA3_512(seeds, drawn, &rank, 32, 1);
  publish(seeds, 32);
  for (int i = 0; i < RANK; i++) {
    draw_noise(&s[i], seeds + 32, i);
    transform(&s[i]);
    encode(secret + POLYNOMIAL * i, &s[i], 12);
  }
  for (int i = 0; i < RANK; i++) {
    draw_row(row, seeds, i, 0);
    multiply(&t, row, s);
    draw_noise(&error, seeds + 32, RANK + i);
    transform(&error);
    add(&t, &error);
    encode(public + POLYNOMIAL * i, &t, 12);
  }
  for (int i = 0; i < 32; i++)
    public[SECRET + i] = seeds[i];
}

/* K-PKE.Encrypt: the ciphertext of a message of 32 bytes, by 32 secret bytes. */
static inline void encrypt(u8 *ciphertext, const u8 *public, const u8 *message, const u8 *coins) {
  polynomial row[RANK], y[RANK], sum, error;
  for (int i = 0; i < RANK; i++) {
    draw_noise(&y[i], coins, i);
    transform(&y[i]);
  }
  for (int i = 0; i < RANK; i++) {
    draw_row(row, public + SECRET, i, 1);
    multiply(&sum, row, y);
    transform_back(&sum);
    draw_noise(&error, coins, RANK + i);
    add(&sum, &error);
    compress_ciphertext(&sum, DU);
    encode(ciphertext + 32 * DU * i, &sum, DU);
  }
  for (int i = 0; i < RANK; i++)
    decode(&row[i], public + POLYNOMIAL * i, 12);
  multiply(&sum, row, y);
  transform_back(&sum);
  draw_noise(&error, coins, 2 * RANK);
  add(&sum, &error);
  decode(&error, message, 1);
  decompress(&error, 1);
  add(&sum, &error);
  compress_ciphertext(&sum, DV);
  encode(ciphertext + 32 * DU * RANK, &sum, DV);
}

/* K-PKE.Decrypt: the message of a ciphertext. */
static inline void decrypt(u8 *message, const u8 *secret, const u8 *ciphertext) {
  polynomial u[RANK], s[RANK], v, sum;
  for (int i = 0; i < RANK; i++) {
    decode(&u[i], ciphertext + 32 * DU * i, DU);
    decompress(&u[i], DU);
    transform(&u[i]);
    decode(&s[i], secret + POLYNOMIAL * i, 12);
  }
  multiply(&sum, s, u);
  transform_back(&sum);
  decode(&v, ciphertext + 32 * DU * RANK, DV);
  decompress(&v, DV);
  for (int i = 0; i < 256; i++)
    v.at[i] = reduced(v.at[i] + MODULUS - sum.at[i]);
  compress_message(&v);
  encode(message, &v, 1);
}

/* ML-KEM.Encaps: the ciphertext, and the shared secret with the coins behind it, of a message and a public key with its hash. */
static inline void encapsulate(u8 *ciphertext, u8 *shared, const u8 *public, const u8 *public_hash, const u8 *message) {
  SHA3_512(shared, message, public_hash, 32, 32);
  encrypt(ciphertext, public, message, shared + 32);
}

/* A pair of keys: what is secret in it, and what isn't. */
typedef struct {
  const u8 *secret, *rejection, *public, *public_hash;
} keys;

/* ML-KEM.Decaps: the shared secret. A ciphertext that isn't the one of its message gives another, of the key's last 32 bytes: which it is
   shows nowhere, since it is chosen by a mask. */
static inline void decapsulate(u8 *shared, const keys *by, const u8 *ciphertext) {
  u8 message[32], right[64], rejected[32], again[CIPHERTEXT];
  decrypt(message, by->secret, ciphertext);
  encapsulate(again, right, by->public, by->public_hash, message);
  SHAKE256(rejected, sizeof rejected, by->rejection, ciphertext, 32, CIPHERTEXT);
  u32 mask = mask_of(are_equal(again, ciphertext, CIPHERTEXT));
  for (int i = 0; i < 32; i++)
    shared[i] = rejected[i] ^ ((rejected[i] ^ right[i]) & mask);
}
