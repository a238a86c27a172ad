// The ways to spoil the arguments of each call.
#ifndef FAULTS_H
#define FAULTS_H

#include "calls.h"

// A call's arguments before they are lent: on a store, with room for what a fault changes.
struct draft {
    struct arguments arguments;
    const struct store *store;
    uint8_t anchor[PAT_ANCHOR_BYTES + 64];
    uint8_t buffer[PAT_BLOCK_BYTES + 64];
    uint8_t plan[PAT_PLAN_BYTES + 64];
    uint8_t journal[PAT_MAX_JOURNAL_BYTES + 64];
    uint8_t *card;
    uint64_t wrong; // the node spoiled, 0 for none
};

// A way to spoil a draft, with variants to choose from by any number, and what the call is refused
// with.
struct fault {
    const char *name;
    unsigned number;
    void (*apply)(struct draft *draft, size_t variant);
};

// A call with its faults, in the order of its tests.
struct subject {
    const char *name;
    enum call call;
    const struct fault *faults;
    size_t count;
};

extern const struct subject subjects[];
extern const size_t subject_count;

#endif
