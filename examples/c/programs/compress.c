/* Compression: 6000 bytes of text are packed by references to what stood before (LZ77; Ziv and Lempel, 1977), found by a table of the last
   place of each three bytes, then unpacked and compared. Tells the packed length and a sum over it, or that the two differ. */
#include "program.h"
#define LENGTH 6000
#define LONGEST 66
#ifndef SEED
#define SEED 1
#endif

static u8 text[LENGTH], packed[LENGTH * 9 / 8 + 8], unpacked[LENGTH];
static u16 last[1024];

static u32 place_of(const u8 *at) {
  return ((at[0] << 16 | at[1] << 8 | at[2]) * 2654435769u) >> 22;
}

/* A byte below 128 is so many bytes and one to follow as they are; any other a length, and two bytes for how far back. */
__attribute__((noinline)) static u32 pack(void) {
  u32 at = 0, out = 0, plain = 0;
  while (at < LENGTH) {
    u32 same = 0, from = 0;
    if (at + 3 < LENGTH) {
      u16 *slot = &last[place_of(text + at)];
      from = *slot;
      *slot = at + 1;
      while (from && at + same < LENGTH && same < LONGEST && text[from - 1 + same] == text[at + same])
        same++;
    }
    if (same > 3) {
      u32 back = at - (from - 1);
      packed[out++] = 128 + same - 4;
      packed[out++] = back >> 8;
      packed[out++] = back;
      at += same;
      plain = 0;
    } else {
      if (!plain || packed[plain - 1] == 127) {
        plain = ++out;
        packed[plain - 1] = 255;
      }
      packed[plain - 1]++;
      packed[out++] = text[at++];
    }
  }
  return out;
}

__attribute__((noinline)) static void unpack(u32 length) {
  u32 out = 0;
  for (u32 at = 0; at < length;) {
    u32 count = packed[at++];
    if (count < 128) {
      for (count++; count; count--)
        unpacked[out++] = packed[at++];
    } else {
      u32 back = packed[at] << 8 | packed[at + 1];
      at += 2;
      for (count -= 124; count; count--, out++)
        unpacked[out] = unpacked[out - back];
    }
  }
}

int main(void) {
  static const char words[8][8] = {"the ", "core ", "loads ", "a ", "secret ", "and ", "waits ", "for it "};
  u32 state = SEED, length = 0, sum = 0;
  while (length < LENGTH) {
    state = random_after(state);
    for (const char *next = words[state >> 7 & 7]; *next && length < LENGTH; next++)
      text[length++] = *next;
    if (!(state >> 11 & 7) && length < LENGTH)
      text[length++] = 'a' + (state >> 14 & 15);
  }
  u32 size = pack();
  unpack(size);
  for (u32 i = 0; i < LENGTH; i++)
    if (text[i] != unpacked[i])
      return told("differs", i);
  for (u32 i = 0; i < size; i++)
    sum = sum * 31 + packed[i];
  return told("compress", size << 16 | (sum & 0xffff));
}
