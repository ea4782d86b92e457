/* The seed tree of one execution. */
#include "layers.h"

#include <string.h>

static void children(const uint8_t node[16], uint8_t child[2][16])
{
    struct aes128 key;
    aes128_expand(&key, node);
    aes128_counters(&key, 0, child[0], 2);
}

void tree_leaves(const uint8_t root[16], uint32_t N, uint8_t (*leaves)[16])
{
    if (N == 1) {
        memcpy(leaves[0], root, 16);
        return;
    }
    uint8_t child[2][16];
    children(root, child);
    tree_leaves(child[0], N / 2, leaves);
    tree_leaves(child[1], N / 2, leaves + N / 2);
}

/* In both walks hidden counts from the first leaf beneath the node; outside 0..N-1, also by
 * wrapping below 0, it is not beneath it. They answer the end of what they wrote or read. */

uint8_t *tree_open(const uint8_t root[16], uint32_t N, uint32_t hidden, uint8_t *opened)
{
    if (hidden >= N) {
        memcpy(opened, root, 16);
        return opened + 16;
    }
    if (N == 1)
        return opened;
    uint8_t child[2][16];
    children(root, child);
    opened = tree_open(child[0], N / 2, hidden, opened);
    return tree_open(child[1], N / 2, hidden - N / 2, opened);
}

const uint8_t *tree_reopen(const uint8_t *opened, uint32_t N, uint32_t hidden, uint8_t (*leaves)[16])
{
    if (hidden >= N) {
        tree_leaves(opened, N, leaves);
        return opened + 16;
    }
    if (N == 1)
        return opened;
    opened = tree_reopen(opened, N / 2, hidden, leaves);
    return tree_reopen(opened, N / 2, hidden - N / 2, leaves + N / 2);
}
