// Split writes whose cards, ranges, messages, tags and AES calls are known from model.py, and where
// each message is.
#include "split.h"
#include "tests.h"

#include <stdio.h>
#include <string.h>

// A plan and what is left after it and after its last put. Where the history is another than that
// of the row before, it starts on a formatted card, wiped first at a T where that is not 0.
struct known_plan {
    const char *history;
    unsigned depth;
    uint64_t wiped;
    unsigned left; // how many plans were left unfinished just before
    uint64_t index;
    uint64_t root;             // T and H after the last put
    uint64_t planned, written; // digests of the card
    size_t plan_calls, engine_calls;
    const char *block, *ranges, *messages;
};

// A put in the order in which they are made, and the numbers of filled places and of T after it.
struct known_put {
    uint64_t node;
    const char *tag;
    uint64_t filled, root;
};

// All that a plan of the block gives; the rest is zero.
struct known_messages {
    unsigned depth;
    uint64_t index;
    struct pat_message messages[MOST_MESSAGES + 1];
};

#include "known_plans.h"

static struct store start(const struct known_plan *row) {
    struct store s = make_store(row->depth);
    if (row->wiped != 0) {
        set_nonces(&s, row->wiped, row->wiped);
        must_wipe(&s);
    }
    return s;
}

// What is known of the buffers that a plan fills.
static void expect_filled(const struct known_plan *row, const struct outcome *o, const char *name) {
    uint8_t expected[PAT_MESSAGES_BYTES];
    size_t length = unhex(expected, row->ranges);
    expect(memcmp(o->ranges.bytes, expected, length) == 0 && unchanged_from(&o->ranges, length),
           "%s: the ranges", name);
    expect(length == PAT_RANGE_BYTES(row->depth), "%s: the length of the ranges", name);
    length = unhex(expected, row->messages);
    expect(memcmp(o->messages.bytes, expected, length) == 0 && unchanged_from(&o->messages, length),
           "%s: the messages", name);
    expect(length == PAT_MESSAGES_FILLED(row->depth), "%s: the length of the messages", name);
    expect(pat_get_number(o->plan.bytes + PAT_PLAN_INDEX) == row->index &&
               pat_get_number(o->plan.bytes + PAT_PLAN_ROOT) == row->root &&
               pat_get_number(o->plan.bytes + PAT_PLAN_FILLED) == 0,
           "%s: the plan", name);
}

// A plan that is left unfinished: the raised anchor stays, and the card of before.
static void leave_plan(struct store *s, unsigned seed) {
    uint8_t block[PAT_BLOCK_BYTES];
    fill(block, sizeof block, seed);
    struct split split = must_plan(s, seed % 2, block);
    memcpy(s->anchor, split.store.anchor, PAT_ANCHOR_BYTES);
    drop_split(&split);
}

static void follow_plan(const struct known_plan *row, struct split *split, const char *name) {
    uint8_t block[PAT_BLOCK_BYTES];
    unhex(block, row->block);
    struct arguments a = arguments_for(PLAN, &split->store, row->index, block);
    a.ranges_len += 9;
    struct outcome o = perform(&a);
    expect(o.answer == 0, "%s: accepted, and not answered %llu", name,
           (unsigned long long)o.answer);
    expect_filled(row, &o, name);
    pat_put_number(split->store.anchor + PAT_ANCHOR_RESERVED, row->root);
    expect(memcmp(o.anchor.bytes, split->store.anchor, PAT_ANCHOR_BYTES) == 0,
           "%s: H is raised, and nothing else in the anchor", name);
    expect(digest(o.card.bytes, o.card.length) == row->planned, "%s: the card as planned", name);
    memcpy(split->store.card, o.card.bytes, o.card.length);
    memcpy(split->plan, o.plan.bytes, PAT_PLAN_BYTES);
    settle(&o);
}

static void follow_puts(const struct known_put *row, struct split *split, const char *name) {
    for (size_t k = 0; k < PAT_MESSAGES(split->store.depth); k++) {
        uint8_t tag[PAT_TAG_BYTES];
        expect(unhex(tag, row[k].tag) == sizeof tag, "%s: a tag of 16 bytes", name);
        must_put(split, row[k].node, tag);
        expect(plan_number(split, PAT_PLAN_FILLED) == row[k].filled, "%s, put %zu: what is filled",
               name, k);
        expect(pat_get_number(split->store.anchor + PAT_ANCHOR_ROOT) == row[k].root,
               "%s, put %zu: T", name, k);
        expect(nonce_of(&split->store, PAT_ANCHOR_RESERVED) == plan_number(split, PAT_PLAN_ROOT),
               "%s, put %zu: H stays", name, k);
    }
}

static void expect_whole(const struct store *s, const char *name) {
    struct arguments a = arguments_for(CHECK, s, 0, NULL);
    struct outcome o = perform(&a);
    expect(o.answer == 0, "%s: the card is whole", name);
    settle(&o);
}

static void test_aes_calls(const struct known_plan *row, const char *name) {
    expect(PAT_AES_PLAN(row->depth) == row->plan_calls, "%s: the AES calls of the plan", name);
    expect(PAT_AES_WRITE(row->depth) == row->plan_calls + row->engine_calls,
           "%s: plan and engines make the AES calls of a write", name);
}

static void test_messages(void) {
    for (size_t j = 0; j < sizeof known_messages / sizeof *known_messages; j++) {
        const struct known_messages *row = &known_messages[j];
        size_t filled = 0;
        for (unsigned k = 0; k <= MOST_MESSAGES; k++) {
            struct pat_message m = pat_message(row->depth, row->index, k);
            expect(m.node == row->messages[k].node && m.start == row->messages[k].start &&
                       m.length == row->messages[k].length,
                   "depth %u, block %llu: message %u", row->depth, (unsigned long long)row->index,
                   k);
            expect((m.node == 0) == (k >= PAT_MESSAGES(row->depth)),
                   "depth %u: whether there is a message %u", row->depth, k);
            filled += m.length;
        }
        expect(filled == PAT_MESSAGES_FILLED(row->depth), "depth %u: the length of all messages",
               row->depth);
    }
}

void test_known_plans(void) {
    struct split split = {0};
    const struct known_put *puts = known_puts;
    unsigned depths = 0;
    for (size_t k = 0; k < sizeof known_plans / sizeof *known_plans; k++) {
        const struct known_plan *row = &known_plans[k];
        char name[64];
        snprintf(name, sizeof name, "plan %s, row %zu of known_plans.h", row->history, k);
        if (k == 0 || strcmp(row->history, row[-1].history) != 0) {
            drop_split(&split);
            split.store = start(row);
        }
        for (unsigned left = 0; left < row->left; left++)
            leave_plan(&split.store, left);
        follow_plan(row, &split, name);
        follow_puts(puts, &split, name);
        expect(digest(split.store.card, split.store.card_len) == row->written,
               "%s: the card as written", name);
        expect_whole(&split.store, name);
        test_aes_calls(row, name);
        puts += PAT_MESSAGES(row->depth);
        depths |= 1u << row->depth;
    }
    expect(depths == 0x1fffe, "known_plans.h has a plan of every depth");
    expect(puts == known_puts + sizeof known_puts / sizeof *known_puts, "all puts were made");
    drop_split(&split);
    test_messages();
}
