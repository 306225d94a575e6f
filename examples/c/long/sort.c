/* 98000 numbers sorted, 383 KiB, so most pieces are larger than a cache. */
#define COUNT 98000
#include "../programs/sort.c"
