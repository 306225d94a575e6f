/* A table of 131072 places, 512 KiB, into which 100000 keys go: the fuller it is, the longer each way. */
#define BITS 17
#define KEYS 100000
#include "../programs/hash.c"
