/* The key is a constant, and nothing loads it. Under link.ld it stands in a segment of its own; GNU ld's own script puts constants into
   the executable segment, and then they are code, which fetch may run into. */
#include "victim.h"

int main(void) {
  return 0;
}
