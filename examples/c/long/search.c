/* 62000 binary searches among 65536 sorted numbers, 256 KiB of them. */
#define COUNT 65536
#define SEARCHES 62000
#include "../programs/search.c"
