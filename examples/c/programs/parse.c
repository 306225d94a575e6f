/* A parser: nested lists of numbers and words, as JSON has them, made and then read 12 times by recursive descent. Branches on each byte,
   calls and returns. Tells the sum of the numbers, and how deep the lists go. */
#include "program.h"
#define ROOM 2400
#define TIMES 12

static char text[ROOM];
static u32 length, state = 1, sum, deepest, words;

static void put(char byte) {
  text[length++] = byte;
}

static void put_value(u32 depth) {
  u32 chosen = (state = random_after(state)) % 8;
  if (depth < 4 && (chosen < 3 || depth < 2)) {
    put('[');
    for (u32 count = 2 + state / 8 % 5; count && length < ROOM - 64; count--) {
      put_value(depth + 1);
      put(count > 1 ? ',' : ' ');
    }
    put(']');
  } else if (chosen < 6) {
    for (u32 digits = 1 + state / 64 % 5; digits; digits--)
      put('0' + (state >> digits * 4 & 7));
  } else {
    put('"');
    for (u32 letters = 3 + state / 64 % 6; letters; letters--)
      put('a' + (state >> letters * 3 & 7));
    put('"');
  }
}

__attribute__((noinline)) static const char *read_value(const char *at, u32 depth) {
  if (*at == '[') {
    deepest = depth > deepest ? depth : deepest;
    for (at++; *at != ']';) {
      at = read_value(at, depth + 1);
      while (*at == ',' || *at == ' ')
        at++;
    }
    return at + 1;
  }
  if (*at == '"') {
    for (at++; *at != '"'; at++)
      words = words * 33 + *at;
    return at + 1;
  }
  u32 number = 0;
  for (; *at >= '0' && *at <= '9'; at++)
    number = number * 10 + *at - '0';
  sum += number;
  return *at == ',' || *at == ' ' || *at == ']' ? at : at + 1;
}

int main(void) {
  put('[');
  while (length < ROOM - 200) {
    put_value(0);
    put(',');
  }
  put(']');
  for (int i = 0; i < TIMES; i++)
    read_value(text, 0);
  return told("parse", sum + deepest + words);
}
