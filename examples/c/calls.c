/* Calls, and no victim. A function that is called from several places returns to another one each time: a table of last targets
   mispredicts that, a return stack doesn't. `wadrelwy view stats` counts both. */
#define NODES 63

static int tree[NODES];

__attribute__((noinline)) static int larger(int a, int b) {
  asm volatile("" : "+r"(a));
  return a > b ? a : b;
}

/* The height of a tree, by recursion. */
__attribute__((noinline)) static int height(int node) {
  if (node >= NODES)
    return 0;
  int left = height(2 * node + 1);
  int right = height(2 * node + 2);
  return 1 + larger(left, right);
}

__attribute__((noinline)) static int sum(int node) {
  return node >= NODES ? 0 : larger(tree[node], 1) + sum(2 * node + 1) + sum(2 * node + 2);
}

int main(void) {
  int most = 0;
  for (int i = 0; i < NODES; i++) {
    tree[i] = i * 13 % 17;
    most = larger(most, tree[i]);
  }
  return larger(height(0), 1) + larger(sum(0), most) + larger(most, 3);
}
