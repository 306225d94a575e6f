/* The parser of another text TIMES times; as often as here it takes 2 * 10^8 instructions. */
#define main once
#include "../programs/parse.c"
#undef main
#undef TIMES
#define TIMES 580

int main(void) {
  int status = 0;
  for (u32 time = 1; time <= TIMES && !status; time++) {
    state = random_after(random_after(time * 2654435769u));
    length = sum = deepest = words = 0;
    status = once();
  }
  return status;
}
