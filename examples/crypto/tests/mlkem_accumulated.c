/* What the Community Cryptography Test Vectors accumulate of ML-KEM-768: SHAKE128 of the public key, the ciphertext and both shared secrets of
   each of COUNT seeds, which SHAKE128 of nothing gives. The second secret is that of a random ciphertext. */
#include "../mlkem.h"

#ifndef COUNT
#define COUNT 100
#endif

static u8 key[SECRET], public[PUBLIC], public_hash[32], drawn[96], ciphertext[CIPHERTEXT], shared[64], again[32];
static sponge given, taken;

/* One seed: two keys, a ciphertext, and what two ciphertexts are decapsulated to. Answers whether the right one gives its secret. */
static u32 one(void) {
  const keys by = {key, drawn + 32, public, public_hash};
  squeeze(drawn, 64, &given);
  pair_of(public, key, drawn);
  SHA3_256(public_hash, public, 0, PUBLIC, 0);
  squeeze(drawn + 64, 32, &given);
  encapsulate(ciphertext, shared, public, public_hash, drawn + 64);
  absorb(&taken, public, PUBLIC);
  absorb(&taken, ciphertext, CIPHERTEXT);
  absorb(&taken, shared, 32);
  decapsulate(again, &by, ciphertext);
  u32 is_same = are_equal(again, shared, 32);
  squeeze(ciphertext, CIPHERTEXT, &given);
  decapsulate(again, &by, ciphertext);
  absorb(&taken, again, 32);
  return is_same;
}

int main(void) {
  u32 right = 0;
  u8 told_of[32];
  begin(&given, 168);
  pad(&given, 31);
  begin(&taken, 168);
  for (u32 i = 0; i < COUNT; i++)
    right += one();
  pad(&taken, 31);
  squeeze(told_of, sizeof told_of, &taken);
  told(told_of, sizeof told_of);
  return right != COUNT;
}
