// Histories whose answers, cards, anchors and ranges are known from model.py, and the AES calls as
// it counts them.
#include "calls.h"
#include "tests.h"

#include <stdio.h>
#include <string.h>

enum kind { START = RECOVER + 1, LOSE };

// A call, or a lost attempt, and what is left after it. argument: the new block, or the block that
// is read. index: of a start, whether it is on last_card; of a wipe, what the card's other bytes
// are made from, or 0.
struct row {
    const char *history;
    unsigned depth;
    unsigned call;
    uint64_t index;
    const char *argument;
    uint64_t root, reserved;
    uint64_t card_digest;
    const char *ranges;
};

// How many AES calls each accepted call makes at a depth.
struct aes_calls {
    unsigned depth;
    size_t read, write, check, wipe;
};

#include "known.h"

static struct store start(const struct row *row) {
    struct store s = make_store(row->depth);
    set_nonces(&s, row->root, row->reserved);
    if (row->index != 0)
        unhex(s.card, last_card);
    return s;
}

// What the call gave besides anchor and card.
static void expect_result(const struct row *row, const struct outcome *o, const char *name) {
    uint8_t expected[PAT_MAX_RANGE_BYTES];
    if (row->call == READ) {
        unhex(expected, row->argument);
        expect(memcmp(o->buffer.bytes, expected, PAT_BLOCK_BYTES) == 0, "%s: the block read", name);
    }
    if (row->call == WRITE) {
        unhex(expected, row->ranges);
        expect(memcmp(o->ranges.bytes, expected, PAT_RANGE_BYTES(row->depth)) == 0,
               "%s: the ranges", name);
    }
}

static void expect_left(const struct row *row, const struct store *s, const char *name) {
    expect(memcmp(s->anchor, test_key, PAT_KEY_BYTES) == 0, "%s: the key stays", name);
    expect(pat_get_number(s->anchor + PAT_ANCHOR_DEPTH) == row->depth, "%s: the depth stays", name);
    expect(nonce_of(s, PAT_ANCHOR_ROOT) == row->root, "%s: the root nonce", name);
    expect(nonce_of(s, PAT_ANCHOR_RESERVED) == row->reserved, "%s: the reserved nonce", name);
    expect(digest(s->card, s->card_len) == row->card_digest, "%s: the card", name);
}

static void follow(const struct row *row, struct store *s, const char *name) {
    uint8_t block[PAT_BLOCK_BYTES];
    unhex(block, row->argument);
    if (row->call == WIPE && row->index != 0)
        fill(s->card, s->card_len, row->index);
    struct arguments a = arguments_for((enum call)row->call, s, row->index, block);
    struct outcome o = perform(&a);
    expect(o.answer == 0, "%s: accepted, and not answered %llu", name,
           (unsigned long long)o.answer);
    expect_result(row, &o, name);
    memcpy(s->anchor, o.anchor.bytes, PAT_ANCHOR_BYTES);
    memcpy(s->card, o.card.bytes, s->card_len);
    settle(&o);
}

static void expect_spent(const struct store *s, enum call call) {
    static const uint8_t block[PAT_BLOCK_BYTES];
    struct arguments a = arguments_for(call, s, 0, block);
    struct outcome o = perform(&a);
    expect(o.answer == PAT_REFUSED_SPENT && all_unchanged(&o),
           "after the last root nonce call %d is refused", call);
    settle(&o);
}

// Every depth has its row.
static void test_aes_calls(void) {
    const size_t count = sizeof aes_calls / sizeof *aes_calls;
    expect(count == PAT_MAX_DEPTH, "known.h has the AES calls of %zu depths, and not of all",
           count);
    for (size_t k = 0; k < count; k++) {
        const struct aes_calls *row = &aes_calls[k];
        const unsigned depth = row->depth;
        expect(depth == k + 1, "row %zu of known.h has the AES calls of the next depth", k);
        expect(PAT_AES_READ(depth) == row->read, "the AES calls of a read at depth %u", depth);
        expect(PAT_AES_WRITE(depth) == row->write, "the AES calls of a write at depth %u", depth);
        expect(PAT_AES_CHECK(depth) == row->check, "the AES calls of a check at depth %u", depth);
        expect(PAT_AES_WIPE(depth) == row->wipe, "the AES calls of a wipe at depth %u", depth);
    }
}

void test_known(void) {
    test_aes_calls();
    struct store s = {0};
    for (size_t k = 0; k < sizeof rows / sizeof *rows; k++) {
        char name[64];
        snprintf(name, sizeof name, "history %s, row %zu of known.h", rows[k].history, k);
        if (rows[k].call == START) {
            drop_store(&s);
            s = start(&rows[k]);
        } else if (rows[k].call == LOSE) {
            lose_attempt(&s);
        } else {
            follow(&rows[k], &s, name);
        }
        expect_left(&rows[k], &s, name);
    }
    expect_spent(&s, WRITE);
    expect_spent(&s, WIPE);
    expect_spent(&s, PLAN);
    expect_spent(&s, JOURNALLED);
    drop_store(&s);
}
