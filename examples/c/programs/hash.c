/* Hashing: a table of 4096 places, with open addressing; 2500 keys go in, and 5000 are looked for, half of which aren't there. The place
   of an access comes from a multiplication. Tells how many were found, and over how many places. */
#include "program.h"
#ifndef KEYS
#define KEYS 2500
#define BITS 12
#endif
#define PLACES (1 << BITS)

static u32 table[PLACES], steps;

static u32 place_of(u32 key) {
  return key * 2654435769u >> (32 - BITS); /* multiplicative hashing; Knuth, The Art of Computer Programming 3, 6.4 */
}

/* The place of a key, or the free one where it would go. */
static u32 found(u32 key) {
  u32 place = place_of(key);
  for (; table[place] && table[place] != key; place = (place + 1) % PLACES)
    steps++;
  return place;
}

int main(void) {
  u32 state = 1, hits = 0;
  for (int i = 0; i < KEYS; i++) {
    state = random_after(state);
    table[found(state)] = state;
  }
  state = 1;
  for (int i = 0; i < KEYS; i++) {
    state = random_after(state);
    hits += table[found(state)] == state;
    hits += table[found(~state)] == ~state;
  }
  return told("hash", hits << 16 | (steps & 0xffff));
}
