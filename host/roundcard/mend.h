// What a write could mend on a card with wrong tags.
#ifndef MEND_H
#define MEND_H

#include "refusal.h"

// For a block whose own node is the first wrong one on its path: the node at which a write of it
// would be refused with 8, 0 where it would be accepted. No list of other writes makes one possible
// that is refused: each tag that a write makes new is one that it has found right, but for that of
// its own block.
uint64_t write_refused_at(const struct situation *situation, uint64_t node);

#endif
