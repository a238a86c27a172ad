// The steps of a split write, each held to what it should leave.
#ifndef SPLIT_H
#define SPLIT_H

#include "calls.h"

enum { MOST_MESSAGES = 2 * PAT_MAX_DEPTH };

// A store with a plan, as the last step left them.
struct split {
    struct store store;
    uint8_t plan[PAT_PLAN_BYTES];
};

// The nodes of a plan in rising number, and how many they are.
size_t list_nodes(unsigned depth, uint64_t index, uint64_t nodes[MOST_MESSAGES]);

// A copy of a store with a plan of these three numbers, which no call has made.
struct split make_split(const struct store *store, uint64_t index, uint64_t root, uint64_t filled);

// A copy of a store after an accepted plan, its H raised.
struct split must_plan(const struct store *store, uint64_t index, const uint8_t *block);

void drop_split(struct split *split);

// The number at one of the plan's places.
uint64_t plan_number(const struct split *split, size_t place);

// The tag of a node on a store's card.
const uint8_t *tag_of(const struct store *store, uint64_t node);

// A put that must be accepted: the tag and its bit are put, the last one moves T, and nothing else
// changes. The split goes on with what it left.
void must_put(struct split *split, uint64_t node, const uint8_t *tag);

// A put that must be refused with 9, and change nothing.
void must_refuse(const struct split *split, uint64_t node);

// The same of the tag that the node has on the card.
void must_refuse_same(const struct split *split, uint64_t node);

// The split has anchor and card of the store.
void expect_same(const struct split *split, const struct store *store);

#endif
