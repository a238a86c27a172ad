// A journalled write with what it leaves, and recoveries on lent copies.
#ifndef RECOVERY_H
#define RECOVERY_H

#include "calls.h"

enum { MOST_JOURNAL = PAT_MAX_JOURNAL_BYTES };

// A write: the store of before and of after, and what goes out besides.
struct journalled {
    struct store old, new;
    uint8_t raised[PAT_ANCHOR_BYTES], ranges[PAT_MAX_RANGE_BYTES], journal[MOST_JOURNAL];
    size_t journal_len;
};

// A journalled write that must be accepted; the old store is a copy.
struct journalled must_journal(const struct store *store, uint64_t index, const uint8_t *block);

void drop_journalled(struct journalled *written);

// A recovery. Gives the answer, and puts what it left into the store; anchor and journal must stay.
uint64_t recover(struct store *store, const uint8_t *journal, size_t journal_len);

// A recovery that must be accepted and leave the card of the other store, under the anchor that the
// store has.
void must_recover(const struct store *store, const uint8_t *journal, size_t journal_len,
                  const struct store *due, const char *what);

#endif
