// Small cards with every byte and every set of tags altered, and what each call then answers. To a
// wipe it makes no difference.
#include "calls.h"
#include "tests.h"

#include <string.h>

enum { MOST_NODES = 16 };

// The nodes that a call checks, in its order.
static size_t list_checks(enum call call, unsigned depth, uint64_t index, uint64_t *nodes) {
    uint64_t leaf = ((uint64_t)1 << depth) + index;
    size_t count = 0;
    if (call == CHECK) {
        for (uint64_t node = 2; node >> (depth + 1) == 0; node++)
            nodes[count++] = node;
        return count;
    }
    for (unsigned above = depth; above-- > 0;) {
        if (call == READ || above > 0)
            nodes[count++] = leaf >> above;
        if (call != READ)
            nodes[count++] = leaf >> above ^ 1;
    }
    return count;
}

// The answer that is due when the tags of a set of nodes, a bit for each, are wrong.
static uint64_t answer_due(enum call call, unsigned depth, uint64_t index, uint32_t wrong) {
    uint64_t nodes[MOST_NODES];
    size_t count = list_checks(call, depth, index, nodes);
    for (size_t k = 0; k < count; k++)
        if (wrong >> nodes[k] & 1)
            return 8 + 256 * nodes[k];
    return 0;
}

// Whether a byte of the card lies in one of the ranges listed.
static bool listed(const uint8_t *ranges, unsigned depth, size_t byte) {
    for (size_t k = 0; k < 2 * depth; k++) {
        size_t start = pat_range_start(ranges, k);
        if (byte >= start && byte < start + pat_range_length(ranges, k))
            return true;
    }
    return false;
}

// An accepted call on an altered card: a read gives the card's block, a write and a plan leave the
// damage away from their ranges.
static void expect_accepted(const struct outcome *o, const struct arguments *a, unsigned depth,
                            size_t byte) {
    size_t place = start_of(depth, ((uint64_t)1 << depth) + a->index);
    if (a->call == READ)
        expect(memcmp(o->buffer.bytes, a->card + place, PAT_BLOCK_BYTES) == 0,
               "byte %zu: the block read", byte);
    if (a->call != WRITE && a->call != PLAN && a->call != JOURNALLED)
        return;
    expect(memcmp(o->card.bytes + place, a->buffer, PAT_BLOCK_BYTES) == 0,
           "byte %zu: the block written", byte);
    size_t stray = 0;
    for (size_t k = 0; k < a->card_len; k++)
        stray += o->card.bytes[k] != a->card[k] && !listed(o->ranges.bytes, depth, k);
    expect(stray == 0, "byte %zu: call %d changed %zu bytes outside its ranges", byte, a->call,
           stray);
}

// A call on a card as it is, on which the tags of a set of nodes are wrong; byte is for the
// message.
static void try_call(const struct store *s, enum call call, uint64_t index, uint32_t wrong,
                     size_t byte) {
    static const uint8_t block[PAT_BLOCK_BYTES] = "another round";
    uint64_t due = answer_due(call, s->depth, index, wrong);
    struct arguments a = arguments_for(call, s, index, block);
    struct outcome o = perform(&a);
    expect(o.answer == due,
           "call %d on block %llu at depth %u, byte %zu, nodes %#x: answered %llu, and %llu is due",
           call, (unsigned long long)index, s->depth, byte, wrong, (unsigned long long)o.answer,
           (unsigned long long)due);
    if (due == 0)
        expect_accepted(&o, &a, s->depth, byte);
    else
        expect(all_unchanged(&o), "byte %zu, nodes %#x: a refused call changed something", byte,
               wrong);
    settle(&o);
}

// A wipe of the card as it is leaves what a wipe of the card before its damage did.
static void try_wipe(const struct store *s, const struct store *wiped, size_t byte) {
    struct arguments a = arguments_for(WIPE, s, 0, NULL);
    struct outcome o = perform(&a);
    expect(o.answer == 0, "byte %zu: a wipe looks at no tag", byte);
    expect(memcmp(o.anchor.bytes, wiped->anchor, PAT_ANCHOR_BYTES) == 0 &&
               memcmp(o.card.bytes, wiped->card, wiped->card_len) == 0,
           "byte %zu: a wipe leaves the same", byte);
    settle(&o);
}

static void try_calls(const struct store *s, const struct store *wiped, uint32_t wrong,
                      size_t byte) {
    try_wipe(s, wiped, byte);
    try_call(s, CHECK, 0, wrong, byte);
    for (uint64_t index = 0; index >> s->depth == 0; index++) {
        try_call(s, READ, index, wrong, byte);
        try_call(s, WRITE, index, wrong, byte);
        try_call(s, PLAN, index, wrong, byte);
        try_call(s, JOURNALLED, index, wrong, byte);
    }
}

static void try_bytes(struct store *s, const struct store *wiped) {
    for (size_t byte = 0; byte < s->card_len; byte++) {
        s->card[byte] ^= (uint8_t)(1 << byte % 8);
        try_calls(s, wiped, (uint32_t)1 << owner(s->depth, byte), byte);
        s->card[byte] ^= (uint8_t)(1 << byte % 8);
    }
}

// Alters a byte of the tag of each node in a set, or puts it right again.
static void alter_tags(struct store *s, uint32_t nodes) {
    for (uint64_t node = 2; node >> (s->depth + 1) == 0; node++)
        if (nodes >> node & 1)
            s->card[start_of(s->depth, node) + label_of(s->depth, node) + node % 16] ^= 0x40;
}

// Every set of wrong tags; on the larger card every set of at most three.
static void try_sets(struct store *s, const struct store *wiped) {
    uint32_t all = ((uint32_t)1 << (2u << s->depth)) - 4;
    for (uint32_t set = 0; set <= all; set += 4) {
        uint32_t rest = set & (set - 1);
        rest &= rest - 1;
        if (s->depth == 3 && (rest & (rest - 1)) != 0)
            continue;
        alter_tags(s, set);
        try_calls(s, wiped, set, 0);
        alter_tags(s, set);
    }
}

// Every byte of the key and of T altered: no read, write, check or plan is accepted. H says which
// nonces come next, and not which the card has.
static void try_anchor(struct store *s) {
    static const enum call calls[] = {READ, WRITE, CHECK, PLAN, JOURNALLED};
    for (size_t byte = 0; byte < PAT_ANCHOR_RESERVED; byte++) {
        if (byte >= PAT_ANCHOR_DEPTH && byte < PAT_ANCHOR_ROOT)
            continue;
        s->anchor[byte] ^= 0x10;
        for (size_t k = 0; k < sizeof calls / sizeof *calls; k++) {
            static const uint8_t block[PAT_BLOCK_BYTES];
            struct arguments a = arguments_for(calls[k], s, 1, block);
            struct outcome o = perform(&a);
            expect(o.answer != 0 && all_unchanged(&o), "byte %zu of the anchor altered: refused",
                   byte);
            settle(&o);
        }
        s->anchor[byte] ^= 0x10;
    }
}

// The same store after a wipe.
static struct store wiped_copy(const struct store *s) {
    struct store copy = copy_store(s);
    must_wipe(&copy);
    return copy;
}

static void try_store(struct store *s) {
    struct store wiped = wiped_copy(s);
    try_bytes(s, &wiped);
    try_sets(s, &wiped);
    try_anchor(s);
    drop_store(&wiped);
}

// Cards after some writes, and the same just after a wipe.
void test_flips(void) {
    for (unsigned depth = 1; depth <= 3; depth++) {
        struct store s = make_store(depth);
        uint8_t block[PAT_BLOCK_BYTES];
        for (uint64_t k = 0; k < 6; k++) {
            fill(block, sizeof block, k);
            must_write(&s, k * 3 % ((uint64_t)1 << depth), block);
        }
        try_store(&s);
        must_wipe(&s);
        try_store(&s);
        drop_store(&s);
    }
}
