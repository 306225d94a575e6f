/* Matrices: two of 32 x 32 numbers are multiplied. Loads have addresses that nothing loaded decides, and branches are loops alone.
   Tells a sum over the product. */
#include "program.h"
#define SIZE 32

static int left[SIZE][SIZE], right[SIZE][SIZE], product[SIZE][SIZE];

__attribute__((noinline)) static void multiply(void) {
  for (int row = 0; row < SIZE; row++)
    for (int column = 0; column < SIZE; column++) {
      int sum = 0;
      for (int i = 0; i < SIZE; i++)
        sum += left[row][i] * right[i][column];
      product[row][column] = sum;
    }
}

int main(void) {
  u32 state = 1, sum = 0;
  for (int i = 0; i < SIZE * SIZE; i++) {
    left[i / SIZE][i % SIZE] = (state = random_after(state)) % 1000;
    right[i / SIZE][i % SIZE] = (state = random_after(state)) % 1000;
  }
  multiply();
  for (int i = 0; i < SIZE * SIZE; i++)
    sum = sum * 31 + product[i / SIZE][i % SIZE];
  return told("matrix", sum);
}
