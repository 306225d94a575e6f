/* memset, memcpy, memmove and memcmp. Compilers call them by themselves, as for `int a[100] = {0}` or for a structure that is copied, also
   with -ffreestanding. Byte by byte, so that no access is misaligned. */
typedef unsigned char u8;
typedef __SIZE_TYPE__ size;

/* Else gcc makes a loop that sets or copies bytes a call of the function that it stands in. */
#ifndef __clang__
#pragma GCC optimize("no-tree-loop-distribute-patterns")
#endif

void *memset(void *to, int byte, size count) {
  u8 *at = to;
  while (count--)
    *at++ = byte;
  return to;
}

void *memcpy(void *restrict to, const void *restrict from, size count) {
  u8 *at = to;
  for (const u8 *next = from; count--;)
    *at++ = *next++;
  return to;
}

void *memmove(void *to, const void *from, size count) {
  u8 *at = to;
  const u8 *next = from;
  if (at <= next)
    return memcpy(to, from, count);
  while (count--)
    at[count] = next[count];
  return to;
}

int memcmp(const void *one, const void *two, size count) {
  const u8 *a = one, *b = two;
  for (; count--; a++, b++)
    if (*a != *b)
      return *a - *b;
  return 0;
}
