/* A list of 32768 cells, 512 KiB, walked 60 times. */
#define CELLS 32768
#define WALKS 60
#include "../programs/list.c"
