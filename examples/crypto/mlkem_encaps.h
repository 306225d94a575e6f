/* A message that is encapsulated to the public key of mlkem_keys.h. */
#include "mlkem_keys.h"

u8 secret[32] = {0x35, 0xb8, 0xcc, 0x87, 0x3c, 0x23, 0xdc, 0x62, 0xb8, 0xd2, 0x60, 0x16, 0x9a, 0xfa, 0x2f, 0x75,
                  0xab, 0x91, 0x6a, 0x58, 0xd9, 0x74, 0x91, 0x88, 0x35, 0xd2, 0x5e, 0x6a, 0x43, 0x50, 0x85, 0xb2};

/* Puts out the shared secret, and the hash of the ciphertext, SHA3-256. */
static inline int encapsulated(void) {
  u8 ciphertext[CIPHERTEXT], shared[64];
  encapsulate(ciphertext, shared, public_key, public_hash, secret);
  SHA3_256(shared + 32, ciphertext, 0, CIPHERTEXT, 0);
  return told(shared, sizeof shared);
}
