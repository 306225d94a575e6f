/* aes_gcm_open.c with another key, so that the tag is wrong: the verdict is published, and nothing is put out. */
#include "aes_gcm_open.h"

/* The key of the test case but for its last bit. */
u8 key[16] = {0xfe, 0xff, 0xe9, 0x92, 0x86, 0x65, 0x73, 0x1c, 0x6d, 0x6a, 0x8f, 0x94, 0x67, 0x30, 0x83, 0x09};

int main(void) {
  return opened(key);
}
