// One call of the library with its arguments, on lent copies of them.
#ifndef CALLS_H
#define CALLS_H

#include "lent.h"
#include "pat.h"

enum call { FORMAT, READ, WRITE, CHECK, WIPE, PLAN, PUT, JOURNALLED, RECOVER };

// What a call is given. buffer is a read's buffer, the new block of a write or plan, or the tag
// that is put, whose node is index.
struct arguments {
    enum call call;
    const uint8_t *anchor, *card, *buffer, *ranges, *plan, *messages, *raised, *journal;
    size_t anchor_len, card_len, buffer_len, ranges_len, plan_len, messages_len;
    size_t raised_len, journal_len;
    uint64_t index;
};

// What it leaves.
struct outcome {
    uint64_t answer;
    struct lent anchor, card, buffer, ranges, plan, messages, raised, journal;
};

// A card and its anchor.
struct store {
    unsigned depth;
    uint8_t anchor[PAT_ANCHOR_BYTES];
    uint8_t *card;
    size_t card_len;
};

extern const uint8_t test_key[PAT_KEY_BYTES];

struct outcome perform(const struct arguments *arguments);

// The lent memory goes back.
void settle(struct outcome *outcome);

bool all_unchanged(const struct outcome *outcome);

// A freshly formatted store, one some writes and lost attempts later, and a copy of one.
struct store make_store(unsigned depth);
struct store used_store(unsigned depth);
struct store copy_store(const struct store *store);

void drop_store(struct store *store);

// The arguments of a call on a store with all lengths right; a read's buffer, a range buffer, a
// plan, messages, a raised anchor and a journal have bytes of their own. block is the new block, or
// the tag.
struct arguments arguments_for(enum call call, const struct store *store, uint64_t index,
                               const uint8_t *block);

// An accepted write or wipe: the store gets the anchor and the card that it left.
void must_write(struct store *store, uint64_t index, const uint8_t *block);
void must_wipe(struct store *store);

// An attempt that is lost: of it nothing is left but the raised H.
void lose_attempt(struct store *store);

// T or H of a store, by its place in the anchor.
uint64_t nonce_of(const struct store *store, size_t place);

// Puts T and H into a store's anchor.
void set_nonces(struct store *store, uint64_t root, uint64_t reserved);

// Ends the test where something does not hold.
void expect(bool holds, const char *format, ...) __attribute__((format(printf, 2, 3)));

// What was done so far: calls of the library, and things that held.
struct count {
    unsigned long calls, held;
};

struct count count_so_far(void);

// Bytes that differ from seed to seed.
void fill(uint8_t *bytes, size_t length, uint64_t seed);

// The bytes that a string of hexadecimal digits says, and how many they are.
size_t unhex(uint8_t *bytes, const char *digits);

// FNV-1a in 64 bits.
uint64_t digest(const uint8_t *bytes, size_t length);

// The node whose entry has that byte of a card.
uint64_t owner(unsigned depth, size_t byte);

// Where a node's entry starts, and the length of its label.
size_t start_of(unsigned depth, uint64_t node);
size_t label_of(unsigned depth, uint64_t node);

#endif
