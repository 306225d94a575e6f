/* Linked lists: 4096 cells of 16 bytes in a row that jumps about in 64 KiB, walked five times; then the list is turned round and walked
   again. Nothing but loads whose addresses are what the last load gave. Tells a sum over the values in both orders. */
#include "program.h"
#ifndef CELLS
#define CELLS 4096
#endif
#ifndef WALKS
#define WALKS 5
#endif

struct cell {
  struct cell *next;
  u32 value, unused[2];
};

static struct cell cells[CELLS];

__attribute__((noinline)) static u32 walked(const struct cell *cell) {
  u32 sum = 0;
  for (; cell; cell = cell->next)
    sum = sum * 31 + cell->value;
  return sum;
}

static struct cell *turned(struct cell *cell) {
  struct cell *before = 0;
  while (cell) {
    struct cell *next = cell->next;
    cell->next = before;
    before = cell;
    cell = next;
  }
  return before;
}

int main(void) {
  u32 sum = 0;
  for (u32 i = 0; i < CELLS; i++) { /* 1229 and 4096 have no common factor: each cell comes once */
    struct cell *cell = &cells[i * 1229 % CELLS];
    cell->value = i;
    cell->next = i + 1 < CELLS ? &cells[(i + 1) * 1229 % CELLS] : 0;
  }
  for (int i = 0; i < WALKS; i++)
    sum += walked(&cells[0]);
  return told("list", sum + walked(turned(&cells[0])));
}
