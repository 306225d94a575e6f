/* A graph of 16384 nodes, 224 KiB, searched breadth first from 10 of them. */
#define NODES 16384
#define ROUNDS 10
#include "../programs/graph.c"
