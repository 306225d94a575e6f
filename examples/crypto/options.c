/* A number that is made of a secret is published where one option says so, and looked up where the next one does. That is right as long as the
   second is on only where the first is. Here both are off, so nothing is published and nothing looked up; but a wrong path may look it up. */
#include "crypto.h"
#include "publish.h"

u8 key[4] = {0x80, 0x81, 0x82, 0x83};

/* Public: an option, and where the next one is. Each stands in a line of its own, so that it comes from memory, late. */
struct option {
  volatile u8 is_on;
  struct option *volatile next;
  u8 filled[120];
};
struct option look_up = {0, 0, {0}}, tell = {0, &look_up, {0}};

static const u8 table[1024] = {1, 2, 3};
u32 number;

/* Puts out a 0, since nothing is looked up. */
int main(void) {
  u8 found = 0;
  struct option *option = &tell;
  number = word_of(key) * 1664525 + 1013904223;
  if (option->is_on)
    publish(&number, sizeof number);
  option = option->next;
  if (option->is_on)
    found = table[(number & 15) * 64];
  return told(&found, sizeof found);
}
