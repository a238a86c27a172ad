#include "split.h"

#include <string.h>

// At each level the node of the path and its sibling, the even one first.
size_t list_nodes(unsigned depth, uint64_t index, uint64_t nodes[MOST_MESSAGES]) {
    uint64_t leaf = ((uint64_t)1 << depth) + index;
    size_t count = 0;
    for (unsigned above = depth; above-- > 0;) {
        nodes[count++] = leaf >> above & ~(uint64_t)1;
        nodes[count++] = leaf >> above | 1;
    }
    return count;
}

struct split make_split(const struct store *s, uint64_t index, uint64_t root, uint64_t filled) {
    struct split split = {.store = copy_store(s)};
    pat_put_number(split.plan + PAT_PLAN_INDEX, index);
    pat_put_number(split.plan + PAT_PLAN_ROOT, root);
    pat_put_number(split.plan + PAT_PLAN_FILLED, filled);
    return split;
}

struct split must_plan(const struct store *s, uint64_t index, const uint8_t *block) {
    struct split split = {.store = copy_store(s)};
    struct arguments a = arguments_for(PLAN, s, index, block);
    struct outcome o = perform(&a);
    expect(o.answer == 0,
           "depth %u: a plan on an untouched card is accepted, and not answered %llu", s->depth,
           (unsigned long long)o.answer);
    lose_attempt(&split.store);
    expect(memcmp(o.anchor.bytes, split.store.anchor, PAT_ANCHOR_BYTES) == 0,
           "depth %u: a plan raises H by the depth, and nothing else in the anchor", s->depth);
    memcpy(split.store.card, o.card.bytes, s->card_len);
    memcpy(split.plan, o.plan.bytes, PAT_PLAN_BYTES);
    settle(&o);
    return split;
}

void drop_split(struct split *split) {
    drop_store(&split->store);
}

uint64_t plan_number(const struct split *split, size_t place) {
    return pat_get_number(split->plan + place);
}

const uint8_t *tag_of(const struct store *s, uint64_t node) {
    return s->card + start_of(s->depth, node) + label_of(s->depth, node);
}

static struct outcome put(const struct split *split, uint64_t node, const uint8_t *tag) {
    struct arguments a = arguments_for(PUT, &split->store, node, tag);
    a.plan = split->plan;
    return perform(&a);
}

// Does to the split what an accepted put of the k-th node should.
static void move(struct split *split, size_t k, uint64_t node, const uint8_t *tag) {
    struct store *s = &split->store;
    uint64_t filled = plan_number(split, PAT_PLAN_FILLED) | (uint64_t)1 << k;
    uint64_t all = ((uint64_t)1 << 2 * s->depth) - 1;
    memcpy(s->card + start_of(s->depth, node) + label_of(s->depth, node), tag, PAT_TAG_BYTES);
    pat_put_number(split->plan + PAT_PLAN_FILLED, filled);
    if ((filled & all) == all)
        pat_put_number(s->anchor + PAT_ANCHOR_ROOT, plan_number(split, PAT_PLAN_ROOT));
}

void must_put(struct split *split, uint64_t node, const uint8_t *tag) {
    uint64_t nodes[MOST_MESSAGES];
    struct store *s = &split->store;
    size_t k = 0, count = list_nodes(s->depth, plan_number(split, PAT_PLAN_INDEX), nodes);
    while (k < count && nodes[k] != node)
        k++;
    struct outcome o = put(split, node, tag);
    expect(k < count && o.answer == 0, "depth %u: the tag of node %llu is put, not answered %llu",
           s->depth, (unsigned long long)node, (unsigned long long)o.answer);
    move(split, k, node, tag);
    expect(memcmp(o.card.bytes, s->card, s->card_len) == 0,
           "depth %u, node %llu: the tag is put, and nothing else on the card", s->depth,
           (unsigned long long)node);
    expect(memcmp(o.plan.bytes, split->plan, PAT_PLAN_BYTES) == 0,
           "depth %u, node %llu: its bit is set, and nothing else in the plan", s->depth,
           (unsigned long long)node);
    expect(memcmp(o.anchor.bytes, s->anchor, PAT_ANCHOR_BYTES) == 0,
           "depth %u, node %llu: the last put moves T, and no other", s->depth,
           (unsigned long long)node);
    expect(unchanged(&o.buffer), "a tag stays as it was");
    settle(&o);
}

static void refuse(const struct split *split, uint64_t node, const uint8_t *tag) {
    struct outcome o = put(split, node, tag);
    expect(o.answer == PAT_REFUSED_NOT_AWAITED,
           "depth %u, block %llu, filled %#llx: node %llu is refused with 9, and not answered %llu",
           split->store.depth, (unsigned long long)plan_number(split, PAT_PLAN_INDEX),
           (unsigned long long)plan_number(split, PAT_PLAN_FILLED), (unsigned long long)node,
           (unsigned long long)o.answer);
    expect(all_unchanged(&o), "a refused put of node %llu changed something",
           (unsigned long long)node);
    settle(&o);
}

void must_refuse(const struct split *split, uint64_t node) {
    uint8_t tag[PAT_TAG_BYTES];
    fill(tag, sizeof tag, node);
    refuse(split, node, tag);
}

void must_refuse_same(const struct split *split, uint64_t node) {
    refuse(split, node, tag_of(&split->store, node));
}

void expect_same(const struct split *split, const struct store *s) {
    expect(memcmp(split->store.anchor, s->anchor, PAT_ANCHOR_BYTES) == 0,
           "depth %u: a split write leaves the anchor of a write", s->depth);
    expect(memcmp(split->store.card, s->card, s->card_len) == 0,
           "depth %u: a split write leaves the card of a write", s->depth);
}
