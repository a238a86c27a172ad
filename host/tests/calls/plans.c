// Plans and their puts beside writes, on histories: what a plan leaves, byte for byte, and that the
// puts of right tags in any order, refused ones among them, end as a write does.
#include "split.h"
#include "tests.h"

#include <stdlib.h>
#include <string.h>

// The next of a row of numbers that look random.
static uint64_t draw(uint64_t below) {
    static uint64_t count;
    uint8_t bytes[8];
    pat_put_number(bytes, count++);
    return (digest(bytes, sizeof bytes) >> 11) % below;
}

// The message of a node from what is on the planned card, under the root nonce to come.
static size_t message_of(uint8_t *message, unsigned depth, const uint8_t *card, uint64_t root,
                         uint64_t node) {
    size_t length = label_of(depth, node);
    memcpy(message, card + start_of(depth, node), length);
    if (node / 2 == 1)
        pat_put_number(message + length, root);
    else
        memcpy(message + length, card + start_of(depth, node / 2), 8);
    message[length + 8] = (uint8_t)(node % 2);
    return length + 9;
}

// The card is the written one with the tags of before.
static void expect_card(const struct outcome *plan, const struct outcome *write, unsigned depth,
                        const uint64_t *nodes) {
    uint8_t *due = malloc(plan->card.length);
    if (due == NULL)
        exit(2);
    memcpy(due, write->card.bytes, plan->card.length);
    for (size_t k = 0; k < 2 * depth; k++) {
        size_t tag = start_of(depth, nodes[k]) + label_of(depth, nodes[k]);
        memcpy(due + tag, plan->card.before + tag, PAT_TAG_BYTES);
    }
    expect(memcmp(plan->card.bytes, due, plan->card.length) == 0,
           "depth %u: a plan puts nonces and block, and no tag", depth);
    free(due);
}

static void expect_messages(const struct outcome *plan, unsigned depth, uint64_t index,
                            uint64_t root, const uint64_t *nodes) {
    size_t length = 0;
    for (unsigned k = 0; k < 2 * depth; k++) {
        uint8_t due[PAT_BLOCK_BYTES + 9];
        struct pat_message m = pat_message(depth, index, k);
        size_t own = message_of(due, depth, plan->card.bytes, root, nodes[k]);
        expect(m.node == nodes[k] && m.start == length && m.length == own,
               "depth %u, block %llu: where message %u is", depth, (unsigned long long)index, k);
        expect(memcmp(plan->messages.bytes + length, due, own) == 0,
               "depth %u, block %llu: message %u", depth, (unsigned long long)index, k);
        length += own;
    }
    expect(unchanged_from(&plan->messages, length), "depth %u: the rest of the messages stays",
           depth);
}

static void expect_planned(const struct outcome *plan, const struct outcome *write, unsigned depth,
                           uint64_t index) {
    uint64_t nodes[MOST_MESSAGES], root = pat_get_number(write->anchor.bytes + PAT_ANCHOR_ROOT);
    list_nodes(depth, index, nodes);
    expect(plan->answer == 0 && write->answer == 0, "depth %u: plan and write are accepted", depth);
    expect(memcmp(plan->anchor.bytes, plan->anchor.before, PAT_ANCHOR_RESERVED) == 0 &&
               pat_get_number(plan->anchor.bytes + PAT_ANCHOR_RESERVED) == root,
           "depth %u: a plan raises H to the new T, and leaves the rest of the anchor", depth);
    expect(unchanged(&plan->buffer), "depth %u: a plan leaves the block", depth);
    expect(memcmp(plan->ranges.bytes, write->ranges.bytes, plan->ranges.length) == 0,
           "depth %u: a plan lists the ranges of a write, and leaves the rest of the buffer",
           depth);
    expect(pat_get_number(plan->plan.bytes + PAT_PLAN_INDEX) == index &&
               pat_get_number(plan->plan.bytes + PAT_PLAN_ROOT) == root &&
               pat_get_number(plan->plan.bytes + PAT_PLAN_FILLED) == 0,
           "depth %u: the plan has block and new T, and no tag", depth);
    expect_card(plan, write, depth, nodes);
    expect_messages(plan, depth, index, root, nodes);
}

// Whether a node is none of a plan's: its parent is not above the block.
static bool is_aside(unsigned depth, uint64_t index, uint64_t node) {
    return pat_first_block(depth, node / 2) > index || pat_last_block(depth, node / 2) < index;
}

// Puts the tags of the written card in a random order. Before each, a node is tried that is none of
// the plan's, and after each a node whose tag is put.
static void put_shuffled(struct split *split, const struct store *written, uint64_t index) {
    uint64_t nodes[MOST_MESSAGES];
    unsigned depth = written->depth;
    size_t count = list_nodes(depth, index, nodes);
    for (size_t left = count; left > 0; left--) {
        size_t k = draw(left);
        uint64_t node = nodes[k], other = draw((uint64_t)4 << depth);
        if (is_aside(depth, index, other))
            must_refuse(split, other);
        must_put(split, node, tag_of(written, node));
        nodes[k] = nodes[left - 1];
        nodes[left - 1] = node;
        must_refuse(split, nodes[left - 1 + draw(count - left + 1)]);
        must_refuse_same(split, node);
    }
}

// One block written both ways, in a quarter of the cases the one that is there already; the store
// goes on with the write's.
static void both(struct store *s, uint64_t index) {
    uint8_t block[PAT_BLOCK_BYTES];
    fill(block, sizeof block, draw(UINT64_MAX));
    if (draw(4) == 0)
        memcpy(block, s->card + start_of(s->depth, ((uint64_t)1 << s->depth) + index),
               sizeof block);
    struct arguments a = arguments_for(WRITE, s, index, block);
    a.ranges_len += draw(40);
    struct outcome write = perform(&a);
    a.call = PLAN;
    struct outcome plan = perform(&a);
    expect_planned(&plan, &write, s->depth, index);
    struct split split = {.store = copy_store(s)};
    memcpy(split.store.anchor, plan.anchor.bytes, PAT_ANCHOR_BYTES);
    memcpy(split.store.card, plan.card.bytes, s->card_len);
    memcpy(split.plan, plan.plan.bytes, PAT_PLAN_BYTES);
    memcpy(s->anchor, write.anchor.bytes, PAT_ANCHOR_BYTES);
    memcpy(s->card, write.card.bytes, s->card_len);
    settle(&write);
    settle(&plan);
    put_shuffled(&split, s, index);
    expect_same(&split, s);
    drop_split(&split);
}

// Of the largest cards there are known answers.
void test_plans(void) {
    for (unsigned depth = 1; depth <= 12; depth++) {
        struct store s = make_store(depth);
        uint64_t blocks = (uint64_t)1 << depth;
        unsigned writes = depth <= 8 ? 40 : 4;
        for (unsigned k = 0; k < writes; k++) {
            if (k == writes / 2)
                must_wipe(&s);
            if (draw(4) == 0)
                lose_attempt(&s);
            both(&s, k == 0 ? blocks - 1 : k == 1 ? 0 : draw(blocks));
        }
        drop_store(&s);
    }
}
