#include "mend.h"

// The node at which a read of the block is refused, 0 where it is accepted.
static uint64_t read_refused_at(const struct situation *s, uint64_t index) {
    uint8_t block[PAT_BLOCK_BYTES];
    return pat_node(
        pat_read(s->anchor, s->anchor_len, s->card, s->card_len, index, block, sizeof block));
}

// As a write does, from the root downwards; the path's own nodes are right. A read of any block
// under a node names that node if it is the first that is wrong.
uint64_t write_refused_at(const struct situation *s, uint64_t node) {
    uint64_t leaves = (uint64_t)1 << s->depth;
    for (uint64_t span = leaves / 2; span > 0; span /= 2) {
        uint64_t sibling = node / span ^ 1;
        if (read_refused_at(s, sibling * span - leaves) == sibling)
            return sibling;
    }
    return 0;
}
