// The rows of document 01's table that a caller can see.
#include "calls.h"
#include "tests.h"

#include <string.h>

// One write on a fresh card, and the pairs of start and length that it lists.
static void ranges_row(char row, unsigned depth, uint64_t index, const uint32_t *pairs) {
    static const uint8_t block[PAT_BLOCK_BYTES] = "a round";
    struct store s = make_store(depth);
    struct arguments a = arguments_for(WRITE, &s, index, block);
    struct outcome o = perform(&a);
    expect(o.answer == 0, "row %c: the write is accepted", row);
    for (size_t k = 0; k < 2 * depth; k++) {
        expect(pat_range_start(o.ranges.bytes, k) == pairs[2 * k], "row %c: the start of range %zu",
               row, k);
        expect(pat_range_length(o.ranges.bytes, k) == pairs[2 * k + 1],
               "row %c: the length of range %zu", row, k);
    }
    settle(&o);
    drop_store(&s);
}

static void expect_nonce(char row, const struct store *s, uint64_t node, uint64_t nonce) {
    const uint8_t *place =
        node == 1 ? s->anchor + PAT_ANCHOR_ROOT : s->card + start_of(s->depth, node);
    expect(pat_get_number(place) == nonce, "row %c: the nonce of node %llu", row,
           (unsigned long long)node);
}

static void nonce_rows(void) {
    static const uint8_t block[PAT_BLOCK_BYTES] = "a round";
    struct store f = make_store(3);
    must_write(&f, 5, block);
    expect_nonce('f', &f, 3, 2);
    expect_nonce('f', &f, 6, 1);
    expect_nonce('f', &f, 1, 3);
    drop_store(&f);
    struct store g = make_store(2);
    must_write(&g, 2, block);
    must_write(&g, 0, block);
    expect_nonce('g', &g, 3, 1);
    expect_nonce('g', &g, 2, 3);
    expect_nonce('g', &g, 1, 4);
    drop_store(&g);
}

// The refusal of a write, a wipe or a plan of a card of depth 2 with this root nonce, card length
// and block number.
static unsigned limit(enum call call, uint64_t root, size_t card_len, uint64_t index) {
    static const uint8_t block[PAT_BLOCK_BYTES];
    static uint8_t longer[512];
    struct store s = make_store(2);
    memcpy(longer, s.card, s.card_len);
    set_nonces(&s, root, root);
    struct arguments a = arguments_for(call, &s, index, block);
    a.card = longer;
    a.card_len = card_len;
    struct outcome o = perform(&a);
    unsigned refusal = pat_refusal(o.answer);
    expect(o.answer == 0 || all_unchanged(&o), "a refused call changes nothing");
    settle(&o);
    drop_store(&s);
    return refusal;
}

// What writes, wipes and plans have in common.
static void limit_rows(enum call call) {
    expect(limit(call, UINT64_MAX - 1, 368, 0) == 7, "row h: 2^64 - 2 is spent");
    expect(limit(call, 3, 368, 0) == 2, "row i");
    expect(limit(call, 0, 367, 0) == 3 && limit(call, 0, 368, 0) == 0 &&
               limit(call, 0, 369, 0) == 3,
           "row j");
}

void test_table(void) {
    expect(pat_card_bytes(1) == 160, "row a");
    expect(pat_card_bytes(16) == 6815696, "row b");
    ranges_row('c', 2, 2, (const uint32_t[]){8, 16, 24, 24, 208, 80, 352, 16});
    ranges_row('d', 3, 5, (const uint32_t[]){8, 16, 24, 24, 96, 24, 128, 16, 528, 16, 544, 80});
    ranges_row('e', 1, 0, (const uint32_t[]){0, 80, 144, 16});
    nonce_rows();
    expect(limit(WRITE, UINT64_MAX - 3, 368, 0) == 8,
           "row h: 2^64 - 4 is within the limits, and not the card's root nonce");
    expect(limit(WIPE, UINT64_MAX - 3, 368, 0) == 0, "row h: a wipe needs no such card");
    limit_rows(WRITE);
    limit_rows(WIPE);
    limit_rows(JOURNALLED);
    limit_rows(PLAN);
    expect(limit(WRITE, 0, 368, 3) == 0 && limit(WRITE, 0, 368, 4) == 4, "row k");
}
