/* Sorting: quicksort of 3000 numbers, the middle one of three as the pivot, and insertion for short pieces. Branches depend on what was
   loaded just before. Tells a sum over the sorted numbers and their places, or that they aren't sorted. */
#include "program.h"
#ifndef COUNT
#define COUNT 3000
#endif

static u32 numbers[COUNT];

static void insertion(u32 *first, u32 *last) {
  for (u32 *next = first + 1; next <= last; next++) {
    u32 moved = *next, *at = next;
    for (; at > first && at[-1] > moved; at--)
      *at = at[-1];
    *at = moved;
  }
}

static u32 middle(u32 a, u32 b, u32 c) {
  return a < b ? (b < c ? b : a < c ? c : a) : (a < c ? a : b < c ? c : b);
}

static void sort(u32 *first, u32 *last) {
  if (last - first < 12) {
    insertion(first, last);
    return;
  }
  u32 pivot = middle(*first, first[(last - first) / 2], *last), *left = first, *right = last;
  while (left <= right) {
    while (*left < pivot)
      left++;
    while (*right > pivot)
      right--;
    if (left <= right) {
      u32 kept = *left;
      *left++ = *right;
      *right-- = kept;
    }
  }
  sort(first, right);
  sort(left, last);
}

int main(void) {
  u32 state = 1, sum = 0;
  for (int i = 0; i < COUNT; i++)
    numbers[i] = state = random_after(state);
  sort(numbers, numbers + COUNT - 1);
  for (u32 i = 0; i < COUNT; i++) {
    if (i && numbers[i - 1] > numbers[i])
      return told("unsorted", i);
    sum += numbers[i] * (i + 1);
  }
  return told("sort", sum);
}
