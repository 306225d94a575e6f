/* A binary tree of 33000 keys, 387 KiB. It grows, is searched, and is walked: three parts, none like another. */
#define COUNT 33000
#include "../programs/tree.c"
