/* mlkem_decaps.c with the division that early sources had where the message is made of deciphered numbers, which the secret key decides: the
   divider's time tells how long they are. The modulus is public, and in memory, so that no compiler makes a product of it. */
unsigned modulus = 3329;
#define MESSAGE_QUOTIENT(x) ((x) / modulus)
#include "mlkem_decaps.h"

int main(void) {
  return both_decapsulated();
}
