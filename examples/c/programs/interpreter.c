/* An interpreter: eight operations of a machine with a stack, chosen by a jump through a table; the program that it runs finds the primes
   below 800 by a sieve. Each indirect jump goes where a loaded byte says. Tells how many primes there are, and the sum of all. */
#include "program.h"
#ifndef LIMIT
#define LIMIT 800
#endif

enum { PUSH, GET, SET, LOAD, STORE, ADD, LESS, JUMP, UNLESS, STOP };
enum { I, J, COUNT, SUM, VARIABLES };

/* i = 2; while (i < LIMIT) { if (!cell[i]) { count++; sum += i; for (j = i + i; j < LIMIT; j += i) cell[j] = 1; } i++; } */
static const short code[] = {
    PUSH, 2, SET, I,                                      /*  0 */
    GET, I, PUSH, LIMIT, LESS, UNLESS, 57,                /*  4 */
    GET, I, LOAD, PUSH, 1, LESS, UNLESS, 48,              /* 11: a cell below 1 is free */
    GET, COUNT, PUSH, 1, ADD, SET, COUNT,                 /* 19 */
    GET, SUM, GET, I, ADD, SET, SUM,                      /* 26 */
    GET, I, GET, I, ADD, SET, J,                          /* 33 */
    JUMP, 58,                                             /* 40 */
    0, 0, 0, 0, 0, 0,                                     /* 42 */
    GET, I, PUSH, 1, ADD, SET, I, JUMP, 4,                /* 48 */
    STOP,                                                 /* 57 */
    GET, J, PUSH, LIMIT, LESS, UNLESS, 48,                /* 58 */
    PUSH, 1, GET, J, STORE,                               /* 65 */
    GET, J, GET, I, ADD, SET, J, JUMP, 58,                /* 70 */
};
static int cells[LIMIT], variables[VARIABLES];

__attribute__((noinline)) static void run(void) {
  static const void *const targets[] = {&&push, &&get, &&set, &&load, &&store, &&add, &&less, &&jump, &&unless, &&stop};
  int stack[8], *top = stack;
  const short *at = code;
#define NEXT goto *targets[*at++]
  NEXT;
push: *top++ = *at++; NEXT;
get: *top++ = variables[*at++]; NEXT;
set: variables[*at++] = *--top; NEXT;
load: top[-1] = cells[top[-1]]; NEXT;
store: top -= 2; cells[top[1]] = top[0]; NEXT;
add: top--; top[-1] += *top; NEXT;
less: top--; top[-1] = top[-1] < *top; NEXT;
jump: at = code + *at; NEXT;
unless: at = *--top ? at + 1 : code + *at; NEXT;
stop: return;
}

int main(void) {
  run();
  return told("interpreter", (u32)variables[COUNT] << 24 | variables[SUM]);
}
