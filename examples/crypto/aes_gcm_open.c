/* AES-128-GCM, opened with the right key: the verdict is published, and the text put out, which stays secret. With the certificate of
   aes_gcm_refuse.c it is one for every key, since each gives one of the two verdicts. */
#include "aes_gcm_open.h"

u8 key[16] = {0xfe, 0xff, 0xe9, 0x92, 0x86, 0x65, 0x73, 0x1c, 0x6d, 0x6a, 0x8f, 0x94, 0x67, 0x30, 0x83, 0x08};

int main(void) {
  return opened(key);
}
