// Every order in which the tags of a small card can come; tags that are wrong or late, and what
// finds them; and plans that are left unfinished.
#include "split.h"
#include "tests.h"

#include <string.h>

static const uint8_t round_bytes[PAT_BLOCK_BYTES] = "the new round";

static struct split copy_split(const struct split *split) {
    struct split copy = *split;
    copy.store = copy_store(&split->store);
    return copy;
}

// The same write by pat_write.
static struct store written(const struct store *s, uint64_t index) {
    struct store copy = copy_store(s);
    must_write(&copy, index, round_bytes);
    return copy;
}

// Puts one of the tags that are left, in each way, and goes on with the others. Gives the number of
// orders.
static unsigned put_rest(const struct split *split, const struct store *end, uint64_t *nodes,
                         size_t left) {
    unsigned orders = left == 0;
    if (left == 0)
        expect_same(split, end);
    for (size_t k = 0; k < left; k++) {
        struct split next = copy_split(split);
        uint64_t node = nodes[k];
        must_put(&next, node, tag_of(end, node));
        nodes[k] = nodes[left - 1];
        orders += put_rest(&next, end, nodes, left - 1);
        nodes[k] = node;
        drop_split(&next);
    }
    return orders;
}

static void try_orders(unsigned depth, uint64_t index, unsigned due) {
    uint64_t nodes[MOST_MESSAGES];
    struct store s = used_store(depth), end = written(&s, index);
    struct split split = must_plan(&s, index, round_bytes);
    size_t count = list_nodes(depth, index, nodes);
    unsigned orders = put_rest(&split, &end, nodes, count);
    expect(orders == due, "depth %u: %u orders, and not %u", depth, orders, due);
    drop_split(&split);
    drop_store(&end);
    drop_store(&s);
}

static uint64_t answer_of(enum call call, const struct store *s, uint64_t index) {
    struct arguments a = arguments_for(call, s, index, round_bytes);
    struct outcome o = perform(&a);
    expect(o.answer == 0 || all_unchanged(&o), "a refused call changes nothing");
    settle(&o);
    return o.answer;
}

// A split write with the tag of one node wrong.
static struct split split_wrong(const struct store *s, uint64_t index, uint64_t wrong) {
    uint64_t nodes[MOST_MESSAGES];
    struct store end = written(s, index);
    struct split split = must_plan(s, index, round_bytes);
    size_t count = list_nodes(s->depth, index, nodes);
    for (size_t k = 0; k < count; k++) {
        uint8_t tag[PAT_TAG_BYTES];
        memcpy(tag, tag_of(&end, nodes[k]), sizeof tag);
        tag[k % PAT_TAG_BYTES] ^= nodes[k] == wrong ? 0x20 : 0;
        must_put(&split, nodes[k], tag);
    }
    drop_store(&end);
    return split;
}

// Whoever checks that node finds it, and nobody else.
static void try_wrong(const struct store *s, uint64_t index, uint64_t wrong) {
    struct split split = split_wrong(s, index, wrong);
    uint64_t due = 8 + 256 * wrong;
    expect(answer_of(READ, &split.store, index) == due ||
               answer_of(PLAN, &split.store, index) == due,
           "a read or another plan of the block finds the tag put at node %llu",
           (unsigned long long)wrong);
    expect(answer_of(CHECK, &split.store, 0) == due, "a check finds the tag put at node %llu",
           (unsigned long long)wrong);
    for (uint64_t i = 0; i >> s->depth == 0; i++) {
        bool under = i >= pat_first_block(s->depth, wrong) && i <= pat_last_block(s->depth, wrong);
        bool beside =
            i >= pat_first_block(s->depth, wrong ^ 1) && i <= pat_last_block(s->depth, wrong ^ 1);
        bool own = wrong == ((uint64_t)1 << s->depth) + i;
        expect(answer_of(READ, &split.store, i) == (under ? due : 0), "a read of a block under it");
        expect(answer_of(WRITE, &split.store, i) == ((under && !own) || beside ? due : 0) &&
                   answer_of(PLAN, &split.store, i) == ((under && !own) || beside ? due : 0),
               "a write and a plan of a block whose path has it or its sibling");
    }
    drop_split(&split);
}

// After the write that takes the last T another plan is refused with 7 and checks nothing: of the
// tag of a node beside the path, a check alone finds that it is wrong.
static void try_spent(unsigned depth) {
    struct store s = make_store(depth);
    uint64_t last = UINT64_MAX - UINT64_MAX % depth;
    set_nonces(&s, last - 2 * (uint64_t)depth, last - 2 * (uint64_t)depth);
    must_wipe(&s);
    struct split split = split_wrong(&s, 0, 3);
    expect(pat_get_number(split.store.anchor + PAT_ANCHOR_ROOT) == last, "the last T");
    expect(answer_of(READ, &split.store, 0) == 0, "a read of the block does not look at node 3");
    expect(answer_of(PLAN, &split.store, 0) == PAT_REFUSED_SPENT, "no T is left for a plan");
    expect(answer_of(CHECK, &split.store, 0) == 8 + 256 * 3, "a check finds the tag of node 3");
    drop_split(&split);
    drop_store(&s);
}

// The same store once a plan was left unfinished: its H is raised.
static struct store raised_copy(const struct store *s) {
    struct store copy = copy_store(s);
    lose_attempt(&copy);
    return copy;
}

// A plan with only some of its tags: the block is refused under the anchor, of which H alone has
// moved. On the card of before and with that anchor, another plan and its puts end as a write.
static void give_up(const struct store *s, uint64_t index, size_t some) {
    uint64_t nodes[MOST_MESSAGES];
    struct store raised = raised_copy(s);
    struct store end = written(&raised, index), other_end = written(s, index ^ 1);
    struct split given_up = must_plan(s, index ^ 1, round_bytes), split;
    size_t count = list_nodes(s->depth, index ^ 1, nodes);
    for (size_t k = 0; k < some; k++)
        must_put(&given_up, nodes[k], tag_of(&other_end, nodes[k]));
    expect(memcmp(given_up.store.anchor, raised.anchor, PAT_ANCHOR_BYTES) == 0,
           "the anchor with H raised after %zu of %zu puts", some, count);
    expect(pat_refusal(answer_of(READ, &given_up.store, index ^ 1)) == PAT_REFUSED_TAG,
           "the block of an unfinished plan is refused after %zu of %zu puts", some, count);
    split = must_plan(&raised, index, round_bytes);
    list_nodes(s->depth, index, nodes);
    for (size_t k = count; k-- > 0;)
        must_put(&split, nodes[k], tag_of(&end, nodes[k]));
    expect_same(&split, &end);
    drop_split(&given_up);
    drop_split(&split);
    drop_store(&end);
    drop_store(&other_end);
    drop_store(&raised);
}

// A split write with right tags on a card that is damaged elsewhere: a read and another plan of the
// block are accepted, where a check is not.
static void try_damaged(const struct store *s, uint64_t index) {
    uint64_t nodes[MOST_MESSAGES], half = (uint64_t)1 << (s->depth - 1);
    uint64_t far = ((uint64_t)1 << s->depth) + (index ^ half);
    struct store damaged = copy_store(s);
    damaged.card[start_of(s->depth, far)] ^= 1;
    struct store end = written(&damaged, index);
    struct split split = must_plan(&damaged, index, round_bytes);
    size_t count = list_nodes(s->depth, index, nodes);
    for (size_t k = 0; k < count; k++)
        must_put(&split, nodes[k], tag_of(&end, nodes[k]));
    expect(answer_of(READ, &split.store, index) == 0 && answer_of(PLAN, &split.store, index) == 0,
           "the tags that were put are right");
    expect(answer_of(CHECK, &split.store, 0) == 8 + 256 * far, "the damage is still there");
    drop_split(&split);
    drop_store(&end);
    drop_store(&damaged);
}

// The tag of a plan that was left comes late and is put under the next plan of the block: it is
// taken, its own is then refused, and a read of the block finds it.
static void come_late(const struct store *s, uint64_t index) {
    static const uint8_t other[PAT_BLOCK_BYTES] = "another round";
    uint64_t nodes[MOST_MESSAGES], leaf = ((uint64_t)1 << s->depth) + index;
    struct store given_up = written(s, index), raised = raised_copy(s), end = copy_store(&raised);
    must_write(&end, index, other);
    struct split split = must_plan(&raised, index, other);
    size_t count = list_nodes(s->depth, index, nodes);
    must_put(&split, leaf, tag_of(&given_up, leaf));
    must_refuse(&split, leaf);
    for (size_t k = 0; k < count; k++)
        if (nodes[k] != leaf)
            must_put(&split, nodes[k], tag_of(&end, nodes[k]));
    expect(answer_of(READ, &split.store, index) == 8 + 256 * leaf, "a read finds the late tag");
    drop_split(&split);
    drop_store(&given_up);
    drop_store(&raised);
    drop_store(&end);
}

void test_orders(void) {
    for (uint64_t index = 0; index < 2; index++)
        try_orders(1, index, 2);
    for (uint64_t index = 0; index < 4; index++)
        try_orders(2, index, 24);
    try_orders(3, 5, 720);
    for (unsigned depth = 1; depth <= 4; depth++) {
        struct store s = used_store(depth);
        for (uint64_t index = 0; index >> depth == 0; index += depth < 4 ? 1 : 5) {
            uint64_t nodes[MOST_MESSAGES];
            size_t count = list_nodes(depth, index, nodes);
            for (size_t k = 0; k < count; k++) {
                try_wrong(&s, index, nodes[k]);
                give_up(&s, index, k);
            }
            come_late(&s, index);
            if (depth > 1)
                try_damaged(&s, index);
        }
        try_spent(depth);
        drop_store(&s);
    }
}
