// Puts of every node number under plans of any bytes, on cards of any bytes.
#include "split.h"
#include "tests.h"

#include <string.h>

// Block numbers that no card of the depth has, though all have the low bits of a block's.
static size_t list_absent(unsigned depth, uint64_t index, uint64_t absent[8]) {
    uint64_t blocks = (uint64_t)1 << depth;
    size_t count = 0;
    absent[count++] = blocks;
    absent[count++] = blocks + index;
    absent[count++] = 2 * blocks + index;
    absent[count++] = ((uint64_t)1 << 32) + index;
    absent[count++] = (uint64_t)1 << 63;
    absent[count++] = ((uint64_t)1 << 63) + index;
    absent[count++] = UINT64_MAX - blocks + 1 + index;
    absent[count++] = UINT64_MAX;
    return count;
}

// Node numbers that no card has, though some have the low bits of one that the plan has.
static size_t list_strange(unsigned depth, uint64_t node, uint64_t strange[8]) {
    size_t count = 0;
    strange[count++] = ((uint64_t)4 << depth) + node;
    strange[count++] = ((uint64_t)1 << 32) + node;
    strange[count++] = ((uint64_t)1 << 63) + node;
    strange[count++] = (uint64_t)1 << 63;
    strange[count++] = UINT64_MAX - node + 1;
    strange[count++] = UINT64_MAX - 1;
    strange[count++] = UINT64_MAX;
    return count;
}

static uint64_t low_bits(unsigned count) {
    return ((uint64_t)1 << count) - 1;
}

// Of a large card the first and the last place are tried, and of others all.
static size_t stride(unsigned depth) {
    return depth <= 5 ? 1 : PAT_MESSAGES(depth) - 1;
}

// A store whose card has any bytes: a put looks at none.
static struct store any_store(unsigned depth) {
    struct store s = make_store(depth);
    fill(s.card, s.card_len, depth + 100);
    set_nonces(&s, 7 * (uint64_t)depth, 9 * (uint64_t)depth);
    return s;
}

// One put under a plan: accepted just where the plan awaits the tag.
static void try_put(const struct store *s, uint64_t index, uint64_t filled, uint64_t node) {
    uint64_t nodes[MOST_MESSAGES], root = 0x1122334455667788u + filled;
    uint8_t tag[PAT_TAG_BYTES];
    struct split split = make_split(s, index, root, filled);
    size_t k = 0, count = list_nodes(s->depth, index, nodes);
    while (k < count && nodes[k] != node)
        k++;
    fill(tag, sizeof tag, node + 5);
    if (k < count && (filled >> k & 1) == 0)
        must_put(&split, node, tag);
    else
        must_refuse(&split, node);
    drop_split(&split);
}

// Every set of filled places and every node number up to twice those of the card, with any bits
// that are for no place.
static void try_sets(unsigned depth, uint64_t step) {
    struct store s = any_store(depth);
    for (uint64_t index = 0; index >> depth == 0; index += step)
        for (uint64_t set = 0; set <= low_bits(2 * depth); set++) {
            uint64_t above = set % 3 == 0 ? 0 : set % 3 == 1 ? UINT64_MAX : 0xa5a5a5a5a5a5a5a5u;
            uint64_t filled = set | (above & ~low_bits(2 * depth)), strange[8];
            for (uint64_t node = 0; node >> depth < 4; node++)
                try_put(&s, index, filled, node);
            size_t count = list_strange(depth, 2 + set % 2, strange);
            for (size_t k = 0; k < count; k++)
                try_put(&s, index, filled, strange[k]);
        }
    drop_store(&s);
}

// Under a plan of a block that the card has not, no tag is awaited, whatever is filled.
static void try_absent(unsigned depth) {
    struct store s = any_store(depth);
    uint64_t absent[8], nodes[MOST_MESSAGES], index = low_bits(depth) / 3;
    size_t count = list_absent(depth, index, absent), places = list_nodes(depth, index, nodes);
    for (size_t j = 0; j < count; j++)
        for (size_t k = 0; k < places; k += stride(depth)) {
            uint64_t all_but_one = low_bits(2 * depth) - ((uint64_t)1 << k);
            struct split none = make_split(&s, absent[j], depth, 0);
            struct split last = make_split(&s, absent[j], depth, all_but_one);
            must_refuse(&none, nodes[k]);
            must_refuse(&last, nodes[k]);
            must_refuse(&last, (((uint64_t)1 << depth) + absent[j]) >> k / 2);
            must_refuse(&last, ((((uint64_t)1 << depth) + absent[j]) >> k / 2) ^ 1);
            drop_split(&none);
            drop_split(&last);
        }
    drop_store(&s);
}

// The put of a last tag sets T to what the plan says and leaves H, whichever place it is, whatever
// the bits above and whatever T was, the last one that is a multiple of the depth too. The put of a
// last but one leaves it, and with all places filled no tag is awaited. A tag that the card has
// already is a tag like any other.
static void try_last(unsigned depth) {
    static const uint64_t roots[] = {0, 1, 17, (uint64_t)1 << 63, UINT64_MAX - 1, UINT64_MAX};
    struct store s = any_store(depth);
    uint64_t nodes[MOST_MESSAGES], index = low_bits(depth) / 5, all = low_bits(2 * depth);
    size_t places = list_nodes(depth, index, nodes);
    for (size_t k = 0; k < places; k += stride(depth))
        for (size_t j = 0; j < sizeof roots / sizeof *roots; j++) {
            uint64_t above = j % 2 == 0 ? 0 : ~all, bit = (uint64_t)1 << k;
            uint8_t tag[PAT_TAG_BYTES] = {(uint8_t)j, (uint8_t)k}, own[PAT_TAG_BYTES];
            uint64_t spent = UINT64_MAX - UINT64_MAX % depth;
            set_nonces(&s, j < 3 ? spent : 3 * (uint64_t)depth, spent);
            struct split last = make_split(&s, index, roots[j], (all - bit) | above);
            struct split same = make_split(&s, index, roots[j], (all - bit) | above);
            struct split full = make_split(&s, index, roots[j], all | above);
            uint64_t other = (uint64_t)1 << (k + places - 1) % places;
            struct split two = make_split(&s, index, roots[j], (all - bit - other) | above);
            memcpy(own, tag_of(&same.store, nodes[k]), sizeof own);
            must_put(&two, nodes[k], tag);
            must_put(&last, nodes[k], tag);
            must_put(&same, nodes[k], own);
            expect(pat_get_number(last.store.anchor + PAT_ANCHOR_ROOT) == roots[j],
                   "depth %u: T is the plan's", depth);
            must_refuse(&full, nodes[k]);
            drop_split(&two);
            drop_split(&last);
            drop_split(&same);
            drop_split(&full);
        }
    drop_store(&s);
}

void test_puts(void) {
    try_sets(1, 1);
    try_sets(2, 1);
    try_sets(3, 3);
    for (unsigned depth = 1; depth <= 5; depth++) {
        try_absent(depth);
        try_last(depth);
    }
    try_absent(12);
    try_last(PAT_MAX_DEPTH);
}
