#include "faults.h"

static size_t pick(size_t variant, size_t count) {
    return variant % count;
}

static void anchor_length(struct draft *d, size_t variant) {
    static const size_t lengths[] = {39, 41, 0, 1, 24, 32, 48, 64};
    d->arguments.anchor_len = lengths[pick(variant, 8)];
}

static void raised_length(struct draft *d, size_t variant) {
    static const size_t lengths[] = {39, 41, 0, 1, 24, 32, 48, 64};
    d->arguments.raised_len = lengths[pick(variant, 8)];
}

static void depth(struct draft *d, size_t variant) {
    uint64_t true_depth = d->store->depth;
    const uint64_t depths[] = {0,
                               17,
                               18,
                               256 + true_depth,
                               65536 + true_depth,
                               ((uint64_t)1 << 32) + true_depth,
                               (uint64_t)1 << 63,
                               UINT64_MAX};
    pat_put_number(d->anchor + PAT_ANCHOR_DEPTH, depths[pick(variant, 8)]);
}

// A number of the anchor that is no multiple any more; near the end if it is there already.
static void make_odd(struct draft *d, size_t place, size_t variant) {
    uint64_t n = d->store->depth, number = pat_get_number(d->anchor + place);
    uint64_t odd = number + 1 + pick(variant, n - 1);
    if (number > UINT64_MAX - n)
        odd = UINT64_MAX % n != 0 ? UINT64_MAX : UINT64_MAX - 1;
    pat_put_number(d->anchor + place, odd);
}

// T or H is no multiple, or H is below T, by one step or as a whole number of zero.
static void root_nonce(struct draft *d, size_t variant) {
    uint64_t n = d->store->depth;
    size_t kind = n == 1 ? 2 : pick(variant, 3);
    if (kind < 2) {
        make_odd(d, kind == 0 ? PAT_ANCHOR_ROOT : PAT_ANCHOR_RESERVED, variant / 3);
        return;
    }
    uint64_t reserved = pat_get_number(d->anchor + PAT_ANCHOR_RESERVED);
    uint64_t root = pat_get_number(d->anchor + PAT_ANCHOR_ROOT);
    if (reserved > UINT64_MAX - n) // spent: T cannot be above it
        pat_put_number(d->anchor + PAT_ANCHOR_RESERVED, root - n);
    else if (pick(variant / 3, 2) == 0)
        pat_put_number(d->anchor + PAT_ANCHOR_ROOT, reserved + n);
    else
        pat_put_number(d->anchor + PAT_ANCHOR_RESERVED, root - n);
}

static void card_length(struct draft *d, size_t variant) {
    size_t right = d->store->card_len;
    const size_t lengths[] = {right - 1, right + 1,      0, right - 80, right + 80,
                              right / 2, 2 * right + 48, 1};
    d->arguments.card_len = lengths[pick(variant, 8)];
}

static void block_number(struct draft *d, size_t variant) {
    uint64_t count = (uint64_t)1 << d->store->depth;
    const uint64_t numbers[] = {count,
                                count + 1,
                                2 * count,
                                (uint64_t)1 << 32,
                                ((uint64_t)1 << 32) + count - 1,
                                (uint64_t)1 << 63,
                                UINT64_MAX - count,
                                UINT64_MAX};
    d->arguments.index = numbers[pick(variant, 8)];
}

static void block_length(struct draft *d, size_t variant) {
    static const size_t lengths[] = {63, 65, 0, 1, 32, 72, 80, 128};
    d->arguments.buffer_len = lengths[pick(variant, 8)];
}

static void plan_length(struct draft *d, size_t variant) {
    static const size_t lengths[] = {23, 25, 0, 1, 16, 32, 40, 64};
    d->arguments.plan_len = lengths[pick(variant, 8)];
}

static void messages_length(struct draft *d, size_t variant) {
    size_t filled = PAT_MESSAGES_FILLED(d->store->depth);
    const size_t lengths[] = {655, 657, 0, 1, filled % 656, filled + 1, 622, 690};
    d->arguments.messages_len = lengths[pick(variant, 8)];
}

static void tag_length(struct draft *d, size_t variant) {
    static const size_t lengths[] = {15, 17, 0, 1, 8, 12, 32, 64};
    d->arguments.buffer_len = lengths[pick(variant, 8)];
}

static void range_length(struct draft *d, size_t variant) {
    size_t needed = d->arguments.ranges_len;
    const size_t lengths[] = {needed - 1, 0, needed - 8, needed - 16, needed / 2};
    d->arguments.ranges_len = lengths[pick(variant, 5)];
}

// H is the last nonce, and T it too or as it was.
static void spent(struct draft *d, size_t variant) {
    uint64_t n = d->store->depth, last = UINT64_MAX - UINT64_MAX % n;
    pat_put_number(d->anchor + PAT_ANCHOR_RESERVED, last);
    if (pick(variant, 2) == 0)
        pat_put_number(d->anchor + PAT_ANCHOR_ROOT, last);
}

static void journal_length(struct draft *d, size_t variant) {
    size_t right = d->arguments.journal_len;
    const size_t lengths[] = {right - 1,  right + 1,  0,         right - 56,
                              right + 56, right - 16, right / 2, PAT_MAX_JOURNAL_BYTES + 56};
    d->arguments.journal_len = lengths[pick(variant, 8)];
}

// One byte of a node that the call checks.
static void tag(struct draft *d, size_t variant) {
    unsigned n = d->store->depth;
    uint64_t leaf = ((uint64_t)1 << n) + d->arguments.index, node = leaf >> pick(variant, n);
    if (d->arguments.call == CHECK)
        node = 2 + pick(variant, ((size_t)2 << n) - 2);
    if (d->arguments.call != CHECK && d->arguments.call != READ &&
        (node == leaf || variant / n % 2 == 1))
        node ^= 1;
    size_t byte = pick(variant * 7 + 3, label_of(n, node) + 16);
    d->card[start_of(n, node) + byte] ^= (uint8_t)(1 << pick(variant, 8));
    d->wrong = node;
}

// The plan is of a block that the card has not.
static void planned_block(struct draft *d, size_t variant) {
    uint64_t node = d->arguments.index;
    block_number(d, variant);
    pat_put_number(d->plan + PAT_PLAN_INDEX, d->arguments.index);
    d->arguments.index = node;
}

// A node that is none of the plan's.
static void other_node(struct draft *d, size_t variant) {
    unsigned n = d->store->depth;
    uint64_t leaf = ((uint64_t)1 << n) + pat_get_number(d->plan + PAT_PLAN_INDEX);
    const uint64_t nodes[] = {0,
                              1,
                              (uint64_t)2 << n,
                              n == 1 ? 4 : leaf ^ 2,
                              2 * leaf,
                              (uint64_t)1 << 63,
                              ((uint64_t)1 << 32) + leaf,
                              UINT64_MAX};
    d->arguments.index = nodes[pick(variant, 8)];
}

// The node's own bit, and in some variants every bit.
static void filled_place(struct draft *d, size_t variant) {
    unsigned n = d->store->depth;
    uint64_t node = d->arguments.index, filled = pat_get_number(d->plan + PAT_PLAN_FILLED);
    unsigned level = 0;
    while (node >> (level + 1) != 0)
        level++;
    filled |= (uint64_t)1 << (2 * (level - 1) + node % 2);
    if (pick(variant, 4) == 1)
        filled |= ((uint64_t)1 << 2 * n) - 1;
    pat_put_number(d->plan + PAT_PLAN_FILLED, pick(variant, 4) == 2 ? UINT64_MAX : filled);
}

// The faults of each call in the order of its tests, with the number of each.
#define ANCHOR_LENGTH                                                                              \
    { "anchor length", 5, anchor_length }
#define DEPTH                                                                                      \
    { "depth", 1, depth }
#define ROOT_NONCE                                                                                 \
    { "root nonce", 2, root_nonce }
#define CARD_LENGTH                                                                                \
    { "card length", 3, card_length }
#define BLOCK_NUMBER                                                                               \
    { "block number", 4, block_number }
#define BLOCK_LENGTH                                                                               \
    { "block length", 5, block_length }
#define TAG                                                                                        \
    { "tag", 8, tag }
#define SPENT                                                                                      \
    { "spent", 7, spent }
#define RANGE_LENGTH                                                                               \
    { "range length", 6, range_length }
#define JOURNAL_LENGTH                                                                             \
    { "journal length", 10, journal_length }
#define PLAN_LENGTH                                                                                \
    { "plan length", 5, plan_length }

static const struct fault format_faults[] = {ANCHOR_LENGTH, DEPTH, CARD_LENGTH};
static const struct fault read_faults[] = {ANCHOR_LENGTH, DEPTH,        ROOT_NONCE, CARD_LENGTH,
                                           BLOCK_NUMBER,  BLOCK_LENGTH, TAG};
static const struct fault write_faults[] = {ANCHOR_LENGTH, DEPTH,        ROOT_NONCE,
                                            CARD_LENGTH,   BLOCK_NUMBER, BLOCK_LENGTH,
                                            RANGE_LENGTH,  SPENT,        TAG};
static const struct fault check_faults[] = {ANCHOR_LENGTH, DEPTH, ROOT_NONCE, CARD_LENGTH, TAG};
static const struct fault wipe_faults[] = {ANCHOR_LENGTH, DEPTH, ROOT_NONCE, CARD_LENGTH, SPENT};
static const struct fault plan_faults[] = {
    ANCHOR_LENGTH, PLAN_LENGTH,  {"messages length", 5, messages_length},
    DEPTH,         ROOT_NONCE,   CARD_LENGTH,
    BLOCK_NUMBER,  BLOCK_LENGTH, RANGE_LENGTH,
    SPENT,         TAG};
static const struct fault journalled_faults[] = {ANCHOR_LENGTH,
                                                 {"raised length", 5, raised_length},
                                                 DEPTH,
                                                 ROOT_NONCE,
                                                 CARD_LENGTH,
                                                 JOURNAL_LENGTH,
                                                 BLOCK_NUMBER,
                                                 BLOCK_LENGTH,
                                                 RANGE_LENGTH,
                                                 SPENT,
                                                 TAG};
static const struct fault recover_faults[] = {ANCHOR_LENGTH, DEPTH, ROOT_NONCE, CARD_LENGTH,
                                              JOURNAL_LENGTH};
static const struct fault put_faults[] = {ANCHOR_LENGTH,
                                          PLAN_LENGTH,
                                          {"tag length", 5, tag_length},
                                          DEPTH,
                                          ROOT_NONCE,
                                          CARD_LENGTH,
                                          {"block of the plan", 9, planned_block},
                                          {"node", 9, other_node},
                                          {"filled place", 9, filled_place}};

const struct subject subjects[] = {
    {"format", FORMAT, format_faults, 3},
    {"read", READ, read_faults, 7},
    {"write", WRITE, write_faults, 9},
    {"check", CHECK, check_faults, 5},
    {"wipe", WIPE, wipe_faults, 5},
    {"plan", PLAN, plan_faults, 11},
    {"put", PUT, put_faults, 9},
    {"journalled write", JOURNALLED, journalled_faults, 11},
    {"recovery", RECOVER, recover_faults, 5},
};
const size_t subject_count = sizeof subjects / sizeof *subjects;
