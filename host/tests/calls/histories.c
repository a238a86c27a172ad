// Histories of random calls beside a plain array, and cards put together from old and new parts.
#include "calls.h"
#include "tests.h"

#include <stdlib.h>
#include <string.h>

// A store with the array that it should agree with. taken: how many writes, wipes and lost attempts
// there were.
struct history {
    struct store store;
    uint8_t (*array)[PAT_BLOCK_BYTES];
    uint64_t taken;
    uint64_t state;
};

static uint64_t any(struct history *h, uint64_t below) {
    h->state = h->state * 6364136223846793005u + 1442695040888963407u;
    return (h->state >> 33) % below;
}

static struct history begin(unsigned depth) {
    struct history h = {make_store(depth), calloc((size_t)1 << depth, PAT_BLOCK_BYTES), 0, depth};
    if (h.array == NULL)
        exit(2);
    return h;
}

static void end(struct history *h) {
    drop_store(&h->store);
    free(h->array);
}

// The path's nodes have the nonces H + n - y, and everything that is not theirs or a tag beside the
// path is as it was.
static void expect_written(const struct history *h, const struct outcome *o, uint64_t index) {
    unsigned n = h->store.depth;
    uint64_t leaf = ((uint64_t)1 << n) + index, reserved = h->taken * n;
    uint8_t *merged = malloc(o->card.length);
    if (merged == NULL)
        exit(2);
    memcpy(merged, o->card.before, o->card.length);
    for (unsigned above = 0; above < n; above++) {
        uint64_t node = leaf >> above;
        size_t start = start_of(n, node), beside = start_of(n, node ^ 1) + label_of(n, node);
        expect(above == 0 || pat_get_number(o->card.bytes + start) == reserved + above,
               "a new nonce on the path");
        memcpy(merged + start, o->card.bytes + start, label_of(n, node) + 16);
        memcpy(merged + beside, o->card.bytes + beside, 16);
        size_t k = 2 * (n - 1 - above);
        size_t own = node % 2 == 0 ? k : k + 1, other = node % 2 == 0 ? k + 1 : k;
        expect(pat_range_start(o->ranges.bytes, own) == start, "where the path's range starts");
        expect(pat_range_length(o->ranges.bytes, own) == label_of(n, node) + 16,
               "the path's range");
        expect(pat_range_start(o->ranges.bytes, other) == beside,
               "where the sibling's range starts");
        expect(pat_range_length(o->ranges.bytes, other) == 16, "the sibling's range");
    }
    expect(memcmp(merged, o->card.bytes, o->card.length) == 0,
           "no byte changes outside path and siblings' tags");
    free(merged);
}

// The history goes on with what an accepted write or wipe left.
static void move_on(struct history *h, struct outcome *o) {
    struct store *s = &h->store;
    h->taken++;
    memcpy(s->anchor, o->anchor.bytes, PAT_ANCHOR_BYTES);
    memcpy(s->card, o->card.bytes, s->card_len);
    expect(memcmp(o->anchor.before, o->anchor.bytes, PAT_ANCHOR_ROOT) == 0,
           "key and depth are kept");
    expect(nonce_of(s, PAT_ANCHOR_ROOT) == h->taken * s->depth &&
               nonce_of(s, PAT_ANCHOR_RESERVED) == h->taken * s->depth,
           "T and H are n times the writes, wipes and lost attempts");
    settle(o);
}

// Attempts of which nothing is left but the raised H.
static void lose_some(struct history *h) {
    for (uint64_t count = any(h, 3); count > 0; count--, h->taken++)
        lose_attempt(&h->store);
}

// A write with some room to spare behind its ranges.
static void write_any(struct history *h) {
    struct store *s = &h->store;
    uint64_t index = any(h, (uint64_t)1 << s->depth);
    uint8_t block[PAT_BLOCK_BYTES];
    fill(block, sizeof block, any(h, 3) == 0 ? 0 : h->state);
    struct arguments a = arguments_for(WRITE, s, index, block);
    a.ranges_len += any(h, 40);
    struct outcome o = perform(&a);
    expect(o.answer == 0, "a write on an untouched card is accepted");
    expect_written(h, &o, index);
    size_t used = PAT_RANGE_BYTES(s->depth);
    expect(memcmp(o.ranges.bytes + used, o.ranges.before + used, o.ranges.length - used) == 0,
           "the rest of the range buffer stays");
    memcpy(h->array[index], block, sizeof block);
    move_on(h, &o);
}

// Every block is zero, and every nonce on the card is the new root nonce.
static void expect_empty(const struct history *h, const struct outcome *o) {
    static const uint8_t zeros[PAT_BLOCK_BYTES];
    unsigned n = h->store.depth;
    for (uint64_t node = 2; node >> (n + 1) == 0; node++) {
        const uint8_t *label = o->card.bytes + start_of(n, node);
        if (node >> n == 0)
            expect(pat_get_number(label) == (h->taken + 1) * n, "a new nonce on the card");
        else
            expect(memcmp(label, zeros, sizeof zeros) == 0, "an empty block");
    }
}

// A wipe of the card as it is, or of one with any bytes, which leaves the same.
static void wipe_any(struct history *h) {
    struct store *s = &h->store;
    uint8_t *other = malloc(s->card_len);
    if (other == NULL)
        exit(2);
    fill(other, s->card_len, h->state);
    struct arguments a = arguments_for(WIPE, s, 0, NULL);
    struct outcome o = perform(&a);
    a.card = other;
    struct outcome same = perform(&a);
    expect(o.answer == 0 && same.answer == 0, "a wipe is accepted on any card");
    expect(memcmp(o.card.bytes, same.card.bytes, s->card_len) == 0 &&
               memcmp(o.anchor.bytes, same.anchor.bytes, PAT_ANCHOR_BYTES) == 0,
           "a wipe leaves the same on any card");
    expect_empty(h, &o);
    memset(h->array, 0, PAT_BLOCK_BYTES << s->depth);
    move_on(h, &o);
    settle(&same);
    free(other);
}

static void read_any(struct history *h) {
    uint64_t index = any(h, (uint64_t)1 << h->store.depth);
    struct arguments a = arguments_for(READ, &h->store, index, NULL);
    struct outcome o = perform(&a);
    expect(o.answer == 0, "a read on an untouched card is accepted");
    expect(memcmp(o.buffer.bytes, h->array[index], PAT_BLOCK_BYTES) == 0,
           "the block read is the array's");
    settle(&o);
}

static void check_whole(struct history *h) {
    struct arguments a = arguments_for(CHECK, &h->store, 0, NULL);
    struct outcome o = perform(&a);
    expect(o.answer == 0, "an untouched card is whole");
    settle(&o);
}

// Makes a call on another card under the store's anchor, and gives its answer.
static uint64_t answer_on(enum call call, const struct store *s, const uint8_t *card,
                          uint64_t index) {
    static const uint8_t block[PAT_BLOCK_BYTES] = "a round";
    struct arguments a = arguments_for(call, s, index, block);
    a.card = card;
    struct outcome o = perform(&a);
    expect(o.answer == 0 || all_unchanged(&o), "a refused call changes nothing");
    settle(&o);
    return o.answer;
}

// Puts old nodes into a card, from a leaf upwards; a read of its block is refused at the last.
static void expect_old_refused(const struct store *s, const uint8_t *old, uint8_t *mixed,
                               uint64_t index) {
    uint64_t leaf = ((uint64_t)1 << s->depth) + index;
    for (unsigned above = 0; above < s->depth; above++) {
        uint64_t node = leaf >> above;
        size_t start = start_of(s->depth, node);
        memcpy(mixed + start, old + start, label_of(s->depth, node) + 16);
        expect(answer_on(READ, s, mixed, index) == 8 + 256 * node,
               "old nodes up to %llu are refused there", (unsigned long long)node);
    }
}

// Every call on a card of before is refused, at node 2 or 3.
static void expect_card_refused(const struct store *s, const uint8_t *old) {
    expect(answer_on(CHECK, s, old, 0) == 8 + 256 * 2, "a check of the card of before is refused");
    for (uint64_t k = 0; k >> s->depth == 0 && k < 16; k++) {
        uint64_t below = (((uint64_t)1 << s->depth) + k) >> (s->depth - 1);
        expect(answer_on(READ, s, old, k) == 8 + 256 * below,
               "the card of before is refused below the root");
        expect(answer_on(WRITE, s, old, k) == 8 + 256 * (s->depth == 1 ? below ^ 1 : below),
               "a write to the card of before is refused below the root");
    }
}

// Two writes to one block; then of the path's nodes those from a level downwards are the old ones
// again.
static void old_among_new(struct history *h) {
    struct store *s = &h->store;
    uint64_t index = any(h, (uint64_t)1 << s->depth);
    uint8_t *old = malloc(s->card_len), *mixed = malloc(s->card_len);
    if (old == NULL || mixed == NULL)
        exit(2);
    uint8_t block[PAT_BLOCK_BYTES] = "the old round";
    must_write(s, index, block);
    memcpy(old, s->card, s->card_len);
    memcpy(block, "the new", 7);
    must_write(s, index, block);
    memcpy(h->array[index], block, sizeof block);
    h->taken += 2;
    memcpy(mixed, s->card, s->card_len);
    expect_old_refused(s, old, mixed, index);
    expect_card_refused(s, old);
    free(old);
    free(mixed);
}

// A wipe; then nodes of before among the wiped ones, and the card of before, which is what a cut
// between anchor and card leaves. To wipe that one mends it.
static void old_among_wiped(struct history *h) {
    struct store *s = &h->store;
    uint8_t *old = malloc(s->card_len), *mixed = malloc(s->card_len);
    if (old == NULL || mixed == NULL)
        exit(2);
    memcpy(old, s->card, s->card_len);
    wipe_any(h);
    memcpy(mixed, s->card, s->card_len);
    expect_old_refused(s, old, mixed, any(h, (uint64_t)1 << s->depth));
    expect_card_refused(s, old);
    memcpy(s->card, old, s->card_len);
    wipe_any(h);
    check_whole(h);
    free(old);
    free(mixed);
}

void test_histories(void) {
    static const unsigned depths[] = {1, 2, 3, 4, 5, 8, 11};
    for (size_t k = 0; k < sizeof depths / sizeof *depths; k++) {
        struct history h = begin(depths[k]);
        for (unsigned turn = 0; turn < 60; turn++) {
            write_any(&h);
            read_any(&h);
            if (turn % 5 == 2)
                lose_some(&h);
            read_any(&h);
            if (turn % 12 == 0) {
                check_whole(&h);
                old_among_new(&h);
            }
            if (turn % 12 == 9)
                old_among_wiped(&h);
            if (turn % 7 == 3)
                wipe_any(&h);
        }
        check_whole(&h);
        end(&h);
    }
}
