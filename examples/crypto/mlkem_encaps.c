/* ML-KEM-768, encapsulation (FIPS 203, algorithm 17), of a message m. Nothing is published. */
#include "mlkem_encaps.h"

int main(void) {
  return encapsulated();
}
