/* mlkem_encaps.c with the division that early sources had where the ciphertext is made of numbers that the message decides. It stands in
   decapsulation, too, where the message is encapsulated again. The modulus is public, and in memory, so that no compiler makes a product of it. */
unsigned modulus = 3329;
#define CIPHERTEXT_QUOTIENT(x) ((x) / modulus)
#include "mlkem_encaps.h"

int main(void) {
  return encapsulated();
}
