/* SHA-3 and SHAKE (FIPS 202): bytes go into a state of 25 lanes of 64 bits, and come out of it, so many between two permutations. */
#include "crypto.h"

typedef union {
  u64 lane[25];
  u8 byte[200];
} keccak;

/* A state, how many bytes go in or out between two permutations, and how many of them have gone. */
typedef struct {
  keccak state;
  u32 rate, gone;
} sponge;

/* A lane turned to the left, by halves: a shift of 64 bits by a number that the compiler doesn't know calls a library. */
static inline u64 turned_lane(u64 lane, u32 by) {
  u32 low = by & 32 ? lane >> 32 : lane, high = by & 32 ? lane : lane >> 32;
  by &= 31;
  return (u64)(high << by | low >> 1 >> (31 - by)) << 32 | (low << by | high >> 1 >> (31 - by));
}

/* Theta: into each lane go all those of the columns beside its own. */
static inline void add_columns(u64 *lane) {
  u64 column[5];
  for (int x = 0; x < 5; x++)
    column[x] = lane[x] ^ lane[x + 5] ^ lane[x + 10] ^ lane[x + 15] ^ lane[x + 20];
  for (int x = 0; x < 5; x++) {
    u64 both = column[(x + 4) % 5] ^ turned_lane(column[(x + 1) % 5], 1);
    for (int y = 0; y < 25; y += 5)
      lane[x + y] ^= both;
  }
}

/* Rho and pi: each lane but the first is turned, and goes into the place of the next one. */
static inline void turn_and_move(u64 *lane) {
  u32 x = 1, y = 0;
  u64 moved = lane[1];
  for (u32 turn = 1, by = 1; turn < 25; by += ++turn) {
    u32 next = (2 * x + 3 * y) % 5;
    x = y, y = next;
    u64 kept = lane[x + 5 * y];
    lane[x + 5 * y] = turned_lane(moved, by % 64);
    moved = kept;
  }
}

/* Chi: each lane and the two behind it in its row. */
static inline void mix_rows(u64 *lane) {
  for (int y = 0; y < 25; y += 5) {
    u64 first = lane[y], second = lane[y + 1];
    for (int x = 0; x < 3; x++)
      lane[y + x] ^= ~lane[y + x + 1] & lane[y + x + 2];
    lane[y + 3] ^= ~lane[y + 4] & first;
    lane[y + 4] ^= ~first & second;
  }
}

/* The permutation, of 24 rounds; iota is its constants. */
static inline void permute(keccak *state) {
  static const u64 constant[24] = {
      0x0000000000000001, 0x0000000000008082, 0x800000000000808a, 0x8000000080008000, 0x000000000000808b, 0x0000000080000001,
      0x8000000080008081, 0x8000000000008009, 0x000000000000008a, 0x0000000000000088, 0x0000000080008009, 0x000000008000000a,
      0x000000008000808b, 0x800000000000008b, 0x8000000000008089, 0x8000000000008003, 0x8000000000008002, 0x8000000000000080,
      0x000000000000800a, 0x800000008000000a, 0x8000000080008081, 0x8000000000008080, 0x0000000080000001, 0x8000000080008008};
  for (int round = 0; round < 24; round++) {
    add_columns(state->lane);
    turn_and_move(state->lane);
    mix_rows(state->lane);
    state->lane[0] ^= constant[round];
  }
}

/* A state of zeros. */
static inline void begin(sponge *to, u32 rate) {
  for (int i = 0; i < 25; i++)
    to->state.lane[i] = 0;
  to->rate = rate;
  to->gone = 0;
}

/* Takes bytes. */
static inline void absorb(sponge *to, const u8 *bytes, u32 count) {
  for (u32 i = 0; i < count; i++) {
    to->state.byte[to->gone++] ^= bytes[i];
    if (to->gone == to->rate) {
      permute(&to->state);
      to->gone = 0;
    }
  }
}

/* Ends what is taken: with 6 for SHA-3, with 31 for SHAKE. */
static inline void pad(sponge *to, u8 with) {
  to->state.byte[to->gone] ^= with;
  to->state.byte[to->rate - 1] ^= 0x80;
  permute(&to->state);
  to->gone = 0;
}

/* Gives bytes, and more where it is asked again. */
static inline void squeeze(u8 *bytes, u32 count, sponge *from) {
  for (u32 i = 0; i < count; i++) {
    if (from->gone == from->rate) {
      permute(&from->state);
      from->gone = 0;
    }
    bytes[i] = from->state.byte[from->gone++];
  }
}

/* Bytes that are hashed, in two parts, either of which may be empty. */
typedef struct {
  const u8 *first, *second;
  u32 first_count, second_count;
} hashed;

/* The hash: of SHA3-256 the rate is 136, of SHA3-512 72, of SHAKE128 168, and of SHAKE256 136. */
static inline void hash(u8 *to, u32 count, hashed from, u32 rate, u8 with) {
  sponge state;
  begin(&state, rate);
  absorb(&state, from.first, from.first_count);
  absorb(&state, from.second, from.second_count);
  pad(&state, with);
  squeeze(to, count, &state);
}

#define SHA3_256(to, ...) hash(to, 32, (hashed){__VA_ARGS__}, 136, 6)
#define SHA3_512(to, ...) hash(to, 64, (hashed){__VA_ARGS__}, 72, 6)
#define SHAKE256(to, count, ...) hash(to, count, (hashed){__VA_ARGS__}, 136, 31)
