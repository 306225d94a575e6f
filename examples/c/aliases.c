/* Loads behind stores whose addresses come late, and no victim. Each round stores to a place that a division gives, and then loads: what
   was just stored, always; the same every eighth round; another array, never. Where loads pass stores (`predictor.depend`) the first two
   are wrong once, and wait for addresses from then on; the third goes on passing, and the next division needs what it loads.
   `wadrelwy view stats` counts it. */
#define ROUNDS 64
#define SCALE 0x300000

static volatile unsigned cells[8], others[8];
static volatile unsigned divisor = SCALE;

__attribute__((noinline)) static unsigned always(unsigned round, unsigned place) {
  cells[place] = round;
  return cells[round & 7];
}

__attribute__((noinline)) static unsigned sometimes(unsigned round, unsigned place) {
  cells[place] = round;
  return cells[7];
}

__attribute__((noinline)) static unsigned never(unsigned round, unsigned place) {
  cells[place] = round;
  return others[round & 7];
}

int main(void) {
  unsigned sum = 0, zero = 0;
  for (unsigned round = 0; round < ROUNDS; round++) {
    unsigned place = ((round & 7) * SCALE + zero) / divisor; /* round & 7, late */
    sum += always(round, place) + sometimes(round, place);
    zero = never(round, place);
  }
  return sum & 255;
}
