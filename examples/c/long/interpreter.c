/* The interpreter's sieve of all numbers below 25000. */
#define LIMIT 25000
#include "../programs/interpreter.c"
