/* A program with a C library: counts words of a text, in memory from malloc, sorted by qsort, told by printf. No victim. */
#include <stdio.h>
#include <stdlib.h>
#include <string.h>

struct word {
  char *text;
  unsigned count;
};

static int by_count(const void *one, const void *two) {
  const struct word *a = one, *b = two;
  return a->count != b->count ? (a->count < b->count) - (a->count > b->count) : strcmp(a->text, b->text);
}

int main(void) {
  static const char text[] = "what the core loads it may show and what it may show the core holds";
  struct word *words = calloc(sizeof text, sizeof *words);
  char *rest = strdup(text);
  size_t count = 0;
  for (char *next = strtok(rest, " "); next; next = strtok(NULL, " ")) {
    size_t at = 0;
    while (at < count && strcmp(words[at].text, next))
      at++;
    words[at].text = next;
    words[at].count++;
    count += at == count;
  }
  qsort(words, count, sizeof *words, by_count);
  for (size_t i = 0; i < count; i++)
    printf("%-6s%2u  %5.1f %%\n", words[i].text, words[i].count, 100.0 * words[i].count / 15);
  return count;
}
