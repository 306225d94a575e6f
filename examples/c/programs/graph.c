/* A graph of 1024 nodes with four edges each: shortest ways from one node, breadth first. What is loaded is an index for the next load
   (distance[edges[node][i]]). Tells the greatest distance and the sum of all. */
#include "program.h"
#ifndef NODES
#define NODES 1024
#endif
#define EDGES 4
#ifndef ROUNDS
#define ROUNDS 3
#endif

static u16 edges[NODES][EDGES], queue[NODES];
static int distance[NODES];

__attribute__((noinline)) static void search(u32 start) {
  u32 first = 0, last = 0;
  for (u32 i = 0; i < NODES; i++)
    distance[i] = -1;
  distance[start] = 0;
  queue[last++] = start;
  while (first < last) {
    u32 node = queue[first++];
    for (u32 i = 0; i < EDGES; i++) {
      u32 other = edges[node][i];
      if (distance[other] < 0) {
        distance[other] = distance[node] + 1;
        queue[last++] = other;
      }
    }
  }
}

int main(void) {
  u32 state = 1, sum = 0, most = 0;
  for (u32 i = 0; i < NODES * EDGES; i++)
    edges[i / EDGES][i % EDGES] = i % EDGES ? (state = random_after(state)) % NODES : (i / EDGES + 1) % NODES;
  for (u32 round = 0; round < ROUNDS; round++) {
    search(round * 341);
    for (u32 i = 0; i < NODES; i++) {
      sum += distance[i];
      most = (u32)distance[i] > most ? (u32)distance[i] : most;
    }
  }
  return told("graph", most << 24 | sum);
}
