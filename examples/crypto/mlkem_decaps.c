/* ML-KEM-768, decapsulation (FIPS 203, algorithm 18), of a ciphertext that is right and of one that isn't. Nothing is published: which of the
   two secrets is answered doesn't show. */
#include "mlkem_decaps.h"

int main(void) {
  return both_decapsulated();
}
