/* Phases that are unlike each other, four rounds of them: a chain of misses through 384 KiB, a sort, arithmetic without memory, and a
   table that is counted in. Each is some millions of instructions long. */
#include "../programs/program.h"
#ifndef ROUNDS
#define ROUNDS 4
#endif
#define CELLS 24576
#define NUMBERS 4000
#define PLACES 32768

static struct cell {
  struct cell *next;
  u32 value, unused[2];
} cells[CELLS];
static u32 numbers[NUMBERS], places[PLACES];

static void link_cells(void) { /* 7919 is a prime, so each cell comes once */
  for (u32 i = 0; i < CELLS; i++) {
    struct cell *cell = &cells[i * 7919 % CELLS];
    cell->value = i;
    cell->next = &cells[(i + 1) * 7919 % CELLS];
  }
}

__attribute__((noinline)) static u32 chain(u32 steps) {
  u32 sum = 0;
  for (const struct cell *cell = cells; steps; steps--, cell = cell->next)
    sum = sum * 31 + cell->value;
  return sum;
}

/* Shell's sort (1959), with Ciura's gaps (2001). */
__attribute__((noinline)) static void sort(void) {
  static const u32 gaps[] = {1750, 701, 301, 132, 57, 23, 10, 4, 1};
  for (u32 g = 0; g < sizeof gaps / sizeof *gaps; g++)
    for (u32 i = gaps[g]; i < NUMBERS; i++) {
      u32 moved = numbers[i], at = i;
      for (; at >= gaps[g] && numbers[at - gaps[g]] > moved; at -= gaps[g])
        numbers[at] = numbers[at - gaps[g]];
      numbers[at] = moved;
    }
}

__attribute__((noinline)) static u32 arithmetic(u32 state, u32 steps) {
  u32 sum = 0;
  for (; steps; steps--) {
    state = random_after(state);
    sum = (sum ^ state) * 2246822519u + (sum >> 13);
  }
  return sum;
}

__attribute__((noinline)) static u32 count(u32 state, u32 steps) {
  u32 most = 0;
  for (; steps; steps--) {
    state = random_after(state);
    u32 now = ++places[state >> 17];
    most = now > most ? now : most;
  }
  return most;
}

int main(void) {
  u32 state = 1, sum = 0;
  link_cells();
  for (int round = 0; round < ROUNDS; round++) {
    sum += chain(300000);
    for (int time = 0; time < 5; time++) {
      for (u32 i = 0; i < NUMBERS; i++)
        numbers[i] = state = random_after(state);
      sort();
      for (u32 i = 1; i < NUMBERS; i++)
        if (numbers[i - 1] > numbers[i])
          return told("unsorted", i);
      sum += numbers[NUMBERS / 2];
    }
    sum += arithmetic(state, 280000);
    sum += count(state, 200000);
  }
  return told("phases", sum);
}
