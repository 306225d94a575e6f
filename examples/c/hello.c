/* Output and an exit value: no victim. */
#include "io.h"

int main(void) {
  puts("hello");
  return 7;
}
