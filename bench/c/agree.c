// The tree over another library's CMAC beside the proved calls, on random calls: every answer and
// every byte must be equal.
#include "cmac.h"
#include <pat.h>

#include <stdbool.h>
#include <stdio.h>
#include <stdlib.h>
#include <string.h>

enum { MOST_DEPTH = 7, MOST_CARD = 104 * (1 << MOST_DEPTH), MOST_BYTES = 320, CALLS = 60000 };

enum kind { FORMAT, READ, WRITE, WIPE, CHECK, KINDS };

// What a call is given and what it leaves.
struct state {
    uint8_t anchor[PAT_ANCHOR_BYTES + 1];
    uint8_t card[MOST_CARD];
    uint8_t block[MOST_BYTES];
    uint8_t ranges[MOST_BYTES];
    size_t anchor_len, card_len, block_len, ranges_len;
    uint64_t index;
};

static uint64_t any(uint64_t below) {
    static uint64_t state = 1;
    state = state * 6364136223846793005u + 1442695040888963407u;
    return (state >> 33) % below;
}

static void fill(uint8_t *bytes, size_t length) {
    for (size_t k = 0; k < length; k++)
        bytes[k] = (uint8_t)any(256);
}

static uint64_t proved(enum kind kind, struct state *s) {
    switch (kind) {
    case FORMAT:
        return pat_format(s->anchor, s->anchor_len, s->card, s->card_len);
    case READ:
        return pat_read(s->anchor, s->anchor_len, s->card, s->card_len, s->index, s->block,
                        s->block_len);
    case WRITE:
        return pat_write(s->anchor, s->anchor_len, s->card, s->card_len, s->index, s->block,
                         s->block_len, s->ranges, s->ranges_len);
    case WIPE:
        return pat_wipe(s->anchor, s->anchor_len, s->card, s->card_len);
    default:
        return pat_check(s->anchor, s->anchor_len, s->card, s->card_len);
    }
}

static uint64_t plain(const struct tree_cmac *cmac, enum kind kind, struct state *s) {
    switch (kind) {
    case FORMAT:
        return tree_format(cmac, s->anchor, s->anchor_len, s->card, s->card_len);
    case READ:
        return tree_read(cmac, s->anchor, s->anchor_len, s->card, s->card_len, s->index, s->block,
                         s->block_len);
    case WRITE:
        return tree_write(cmac, s->anchor, s->anchor_len, s->card, s->card_len, s->index, s->block,
                          s->block_len, s->ranges, s->ranges_len);
    case WIPE:
        return tree_wipe(cmac, s->anchor, s->anchor_len, s->card, s->card_len);
    default:
        return tree_check(cmac, s->anchor, s->anchor_len, s->card, s->card_len);
    }
}

// A card of a random depth under a random key, before its format.
static void begin(struct state *s) {
    uint64_t depth = 1 + any(MOST_DEPTH);
    fill(s->anchor, sizeof s->anchor);
    fill(s->card, sizeof s->card);
    pat_put_number(s->anchor + PAT_ANCHOR_DEPTH, depth);
    s->anchor_len = PAT_ANCHOR_BYTES;
    s->card_len = pat_card_bytes(depth);
    s->block_len = PAT_BLOCK_BYTES;
    s->ranges_len = PAT_RANGE_BYTES(depth);
}

// Gives a call new bytes to work on, and sometimes something that it refuses.
static void vary(struct state *s) {
    uint64_t depth = pat_get_number(s->anchor + PAT_ANCHOR_DEPTH);
    fill(s->block, sizeof s->block);
    fill(s->ranges, sizeof s->ranges);
    s->index = any((uint64_t)1 << depth);
    s->ranges_len = PAT_RANGE_BYTES(depth) + any(64);
    switch (any(26)) {
    case 0:
        s->anchor_len = any(PAT_ANCHOR_BYTES + 2);
        break;
    case 1:
        pat_put_number(s->anchor + PAT_ANCHOR_DEPTH, any(24));
        break;
    case 2:
        pat_put_number(s->anchor + PAT_ANCHOR_ROOT, UINT64_MAX - any(2 * depth));
        pat_put_number(s->anchor + PAT_ANCHOR_RESERVED, UINT64_MAX - any(2 * depth));
        break;
    case 3:
        s->card_len = any(sizeof s->card);
        break;
    case 4:
        s->index = ((uint64_t)1 << depth) + any(4) - 2;
        break;
    case 5:
        s->block_len = any(2 * PAT_BLOCK_BYTES);
        break;
    case 6:
        s->ranges_len = any(PAT_RANGE_BYTES(depth));
        break;
    case 7:
    case 8:
        s->card[any(s->card_len)] ^= (uint8_t)(1 << any(8));
        break;
    case 9:
        s->anchor[any(PAT_ANCHOR_BYTES)] ^= (uint8_t)(1 << any(8));
        break;
    case 10:
        pat_put_number(s->anchor + PAT_ANCHOR_RESERVED, UINT64_MAX - any(2 * depth));
        break;
    case 11:
        pat_put_number(s->anchor + PAT_ANCHOR_RESERVED, depth * any(1000));
        break;
    }
}

// One call on two copies of the state; an accepted write or wipe under its own anchor carries over,
// or is lost and leaves its reserved nonce alone.
static unsigned compare(const struct tree_cmac *cmac, struct state *s, enum kind kind) {
    static struct state one, other;
    one = *s;
    vary(&one);
    other = one;
    bool moves =
        (kind == WRITE || kind == WIPE) && memcmp(one.anchor, s->anchor, PAT_ANCHOR_BYTES) == 0;
    uint64_t answer = proved(kind, &one), expected = plain(cmac, kind, &other);
    if (answer != expected || memcmp(&one, &other, sizeof one) != 0) {
        fprintf(stderr, "FAILED: call %d answers %llu, and over %s %llu, or leaves other bytes\n",
                kind, (unsigned long long)answer, cmac_name, (unsigned long long)expected);
        exit(1);
    }
    if (answer == 0 && moves) {
        uint64_t reserved = pat_get_number(one.anchor + PAT_ANCHOR_RESERVED);
        pat_put_number(s->anchor + PAT_ANCHOR_RESERVED, reserved);
        if (any(4) != 0) {
            memcpy(s->anchor, one.anchor, sizeof s->anchor);
            memcpy(s->card, one.card, sizeof s->card);
        }
    }
    return pat_refusal(answer);
}

int main(void) {
    static struct state state;
    struct tree_cmac cmac = make_cmac();
    unsigned long seen[9] = {0};
    for (unsigned long k = 0; k < CALLS; k++) {
        if (k % 64 == 0) {
            begin(&state);
            if (proved(FORMAT, &state) != 0)
                return 1;
        }
        seen[compare(&cmac, &state, (enum kind)any(KINDS))]++;
    }
    printf("%d random calls equal those of the tree over %s; accepted %lu, refused 1 to 8:", CALLS,
           cmac_name, seen[0]);
    for (size_t k = 1; k < 9; k++) {
        printf(" %lu", seen[k]);
        if (seen[k] == 0)
            return 1;
    }
    printf("\n");
    return 0;
}
