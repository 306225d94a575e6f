/* A division of a secret by a constant, as in Kyber's compression (KyberSlash): where the compiler divides, the time tells the secret;
   where it multiplies, nothing does. */
#include "victim.h"

#define Q 3329

volatile int sink;

__attribute__((noinline)) int compress(int t) {
  return (((t << 1) + Q / 2) / Q) & 1;
}

int main(void) {
  sink = compress(key[0] | key[1] << 8);
  return 0;
}
