/* A binary tree of 1500 keys: they go in one by one, each is looked for, and the whole is walked in order. A load's address is what the
   load before gave, and branches choose between two of them. Tells a sum over the keys in their order, or that they aren't in order. */
#include "program.h"
#ifndef COUNT
#define COUNT 1500
#endif

struct node {
  u32 key;
  struct node *left, *right;
};

static struct node nodes[COUNT], *root;
static u32 sum, place, last, wrong;

static struct node **slot_of(u32 key) {
  struct node **slot = &root;
  while (*slot && (*slot)->key != key)
    slot = key < (*slot)->key ? &(*slot)->left : &(*slot)->right;
  return slot;
}

static void walk(const struct node *node) {
  if (!node)
    return;
  walk(node->left);
  wrong += node->key < last;
  last = node->key;
  sum += node->key * ++place;
  walk(node->right);
}

int main(void) {
  u32 state = 1, missing = 0;
  for (int i = 0; i < COUNT; i++) {
    nodes[i].key = state = random_after(state);
    *slot_of(state) = &nodes[i];
  }
  for (int i = 0; i < COUNT; i++)
    missing += *slot_of(nodes[i].key) != &nodes[i];
  walk(root);
  return wrong || missing ? told("wrong", wrong + missing) : told("tree", sum);
}
