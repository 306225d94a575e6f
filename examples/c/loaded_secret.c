/* What STT doesn't protect. The secret is loaded on the path, by right, and used for nothing there: no address, no time and no branch of
   the path is made from it. A branch that is predicted wrongly then shows it. Constant time on the instruction set isn't constant time
   here, but under the defence `delay`. */
#include "victim.h"

u8 probe[4096] __attribute__((aligned(64)));
volatile u32 flags[64] __attribute__((aligned(64)));
volatile u8 sink;

__attribute__((noinline)) void show_if(volatile u32 *flag, u32 x) {
  if (*flag)
    sink = probe[x * 64 & 4095];
}

int main(void) {
  u32 secret = key[0];
  flags[0] = 1;
  for (int i = 0; i < 8; i++)
    show_if(&flags[0], 0); /* teaches the branch that the flag is set */
  barrier();
  show_if(&flags[32], secret); /* this flag is 0 */
  return 0;
}
