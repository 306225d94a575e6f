/* Branches, and no victim. A loop of three rounds within a loop, branches in turn, and one that two others decide: two-bit counters
   mispredict them, counters that depend on the last branches learn them. `wadrelwy view stats` counts both. */
#define ROUNDS 120

static int counts[4];

/* Keeps a branch a branch. */
#define COUNT(place) do { asm volatile(""); counts[place]++; } while (0)

int main(void) {
  unsigned random = 1;
  for (int round = 0; round < ROUNDS; round++) {
    for (int inner = 0; inner < 3; inner++) {
      asm volatile("" : "+r"(inner));
      counts[0] += inner;
    }
    if (round & 1)
      COUNT(1);
    random = random * 1103515245 + 12345;
    int high = random >> 30 & 1, low = random >> 29 & 1;
    asm volatile("" : "+r"(high), "+r"(low));
    if (high)
      COUNT(2);
    if (low)
      COUNT(3);
    if (high && low)
      COUNT(0);
  }
  return (counts[0] + counts[1] + counts[2] + counts[3]) & 255;
}
