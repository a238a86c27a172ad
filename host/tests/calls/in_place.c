// pat_write_in_place against pat_write, on random histories: the same answers, anchors, cards and
// range buffers, refusals included.
#include "calls.h"
#include "tests.h"

#include <stdlib.h>
#include <string.h>

#define RANGES_LEN 300

static uint64_t state = 0x5deece66d1234567u;

static uint64_t draw(void) {
    state ^= state << 13;
    state ^= state >> 7;
    state ^= state << 17;
    return state;
}

// What a call is given, spoiled once in a while in one of the ways that have a refusal.
struct given {
    struct pat_anchor anchor;
    size_t card_len, block_len, ranges_len;
    uint64_t index;
    size_t flipped;
};

// T or H is no multiple of the depth, or H is below T.
static void spoil_nonces(struct pat_anchor *anchor) {
    switch (draw() % 3) {
    case 0: anchor->root += 1; break;
    case 1: anchor->reserved += anchor->depth == 1 ? -anchor->reserved - 1 : 1; break;
    default: anchor->root = anchor->reserved + anchor->depth; break;
    }
}

static struct given draw_given(const struct pat_anchor *anchor, size_t card_len) {
    struct given given = {*anchor, card_len, PAT_BLOCK_BYTES, RANGES_LEN, 0, card_len};
    given.index = draw() % ((uint64_t)1 << anchor->depth);
    switch (draw() % 16) {
    case 0: given.anchor.depth = draw() % 2 ? 0 : 17 + draw() % 100; break;
    case 1: spoil_nonces(&given.anchor); break;
    case 2: given.card_len -= 1 + draw() % 8; break;
    case 3: given.index += (uint64_t)1 << (anchor->depth + draw() % 40); break;
    case 4: given.block_len -= 1 + draw() % 8; break;
    case 5: given.ranges_len = PAT_RANGE_BYTES(anchor->depth) - 1; break;
    case 6: given.anchor.reserved = UINT64_MAX - UINT64_MAX % anchor->depth; break;
    case 7:
    case 8: given.flipped = draw() % card_len; break;
    case 9: given.anchor.reserved += anchor->depth; break; // a lost attempt
    default: break;
    }
    return given;
}

// One write both ways, and everything compared. Gives the answer.
static uint64_t both(struct given *given, uint8_t *card, uint8_t *other, size_t card_len) {
    uint8_t bytes[PAT_ANCHOR_BYTES], after[PAT_ANCHOR_BYTES], block[PAT_BLOCK_BYTES];
    uint8_t ranges[RANGES_LEN], other_ranges[RANGES_LEN];
    fill(block, sizeof block, draw());
    fill(ranges, sizeof ranges, draw());
    memcpy(other_ranges, ranges, sizeof ranges);
    pat_anchor_to_bytes(&given->anchor, bytes);
    uint64_t answer = pat_write(bytes, sizeof bytes, card, given->card_len, given->index, block,
                                given->block_len, ranges, given->ranges_len);
    uint64_t same = pat_write_in_place(&given->anchor, other, given->card_len, given->index, block,
                                       given->block_len, other_ranges, given->ranges_len);
    pat_anchor_to_bytes(&given->anchor, after);
    expect(answer == same, "answers %llu and %llu", (unsigned long long)answer,
           (unsigned long long)same);
    expect(memcmp(bytes, after, sizeof bytes) == 0, "one anchor after answer %llu",
           (unsigned long long)answer);
    expect(memcmp(card, other, card_len) == 0, "one card after answer %llu",
           (unsigned long long)answer);
    expect(memcmp(ranges, other_ranges, sizeof ranges) == 0, "one list of ranges after answer %llu",
           (unsigned long long)answer);
    return answer;
}

static void flip(uint8_t *card, size_t card_len, size_t at) {
    if (at < card_len)
        card[at] ^= 4;
}

// Wipes both cards, and the anchor by its bytes.
static void wipe_both(struct pat_anchor *anchor, uint8_t *card, uint8_t *other, size_t card_len) {
    uint8_t bytes[PAT_ANCHOR_BYTES], same[PAT_ANCHOR_BYTES];
    pat_anchor_to_bytes(anchor, bytes);
    memcpy(same, bytes, sizeof same);
    expect(pat_wipe(bytes, sizeof bytes, card, card_len) == 0 &&
               pat_wipe(same, sizeof same, other, card_len) == 0,
           "both cards are wiped");
    pat_anchor_from_bytes(anchor, bytes);
}

// A history of one depth, with a wipe in its middle: an accepted write goes on. A flip away from
// the path may be accepted; it then stays, on both cards.
static void history(unsigned depth, unsigned steps, unsigned seen[PAT_REFUSED_TAG + 1]) {
    struct store store = make_store(depth);
    struct pat_anchor anchor;
    uint8_t *other = malloc(store.card_len);
    pat_anchor_from_bytes(&anchor, store.anchor);
    memcpy(other, store.card, store.card_len);
    for (unsigned k = 0; k < steps; k++) {
        if (k == steps / 2)
            wipe_both(&anchor, store.card, other, store.card_len);
        struct given given = draw_given(&anchor, store.card_len);
        flip(store.card, store.card_len, given.flipped);
        flip(other, store.card_len, given.flipped);
        uint64_t answer = both(&given, store.card, other, store.card_len);
        seen[pat_refusal(answer)]++;
        if (answer == PAT_ACCEPTED) {
            anchor = given.anchor;
        } else {
            flip(store.card, store.card_len, given.flipped);
            flip(other, store.card_len, given.flipped);
        }
    }
    free(other);
    drop_store(&store);
}

void test_in_place(void) {
    unsigned seen[PAT_REFUSED_TAG + 1] = {0};
    expect(sizeof(struct pat_anchor) == 40, "the struct has 40 bytes");
    for (unsigned round = 0; round < 20; round++)
        for (unsigned depth = 1; depth <= 7; depth++)
            history(depth, 40, seen);
    expect(seen[PAT_ACCEPTED] > 1500, "%u accepted", seen[PAT_ACCEPTED]);
    for (unsigned k = PAT_REFUSED_DEPTH; k <= PAT_REFUSED_TAG; k++)
        expect(seen[k] > 100, "refusal %u came up %u times", k, seen[k]);
}
