// Every set of faults that a call can have, and the one that it is refused for.
#include "faults.h"
#include "tests.h"

#include <stdlib.h>
#include <string.h>

// A fault among others takes a variant of its own, so that each of its variants meets other faults.
static size_t variant_of(size_t variant, unsigned set, size_t k) {
    return set & (set - 1) ? variant + (set * 2654435761u >> (8 + k)) : variant;
}

// Spoils a draft with a set of faults, the last of them first, and gives the answer that is due.
static uint64_t spoil_with(struct draft *d, const struct subject *subject, unsigned set,
                           size_t variant) {
    uint64_t due = 0;
    for (size_t k = subject->count; k-- > 0;) {
        if ((set >> k & 1) == 0)
            continue;
        subject->faults[k].apply(d, variant_of(variant, set, k));
        due = subject->faults[k].number;
    }
    return due == 8 ? due + 256 * d->wrong : due;
}

// A put of one of the tags that a plan awaits, some others being there already.
static void draft_put(struct draft *d, size_t variant) {
    unsigned n = d->store->depth;
    uint64_t leaf = ((uint64_t)1 << n) + d->arguments.index;
    unsigned above = (unsigned)(variant % n), place = 2 * (n - 1 - above);
    uint64_t node = leaf >> above ^ (variant / 3) % 2;
    uint64_t filled = 0x9249249249249249u << variant % 3;
    pat_put_number(d->plan + PAT_PLAN_INDEX, d->arguments.index);
    pat_put_number(d->plan + PAT_PLAN_ROOT, variant);
    pat_put_number(d->plan + PAT_PLAN_FILLED, filled & ~((uint64_t)1 << (place + node % 2)));
    d->arguments.index = node;
}

static void try_set(const struct subject *subject, const struct store *s, unsigned set,
                    size_t variant) {
    static const uint8_t block[PAT_BLOCK_BYTES] = "the new round";
    struct draft d = {.store = s};
    d.arguments = arguments_for(subject->call, s, variant % ((size_t)1 << s->depth), block);
    memcpy(d.plan, d.arguments.plan, sizeof d.plan);
    memcpy(d.journal, d.arguments.journal, sizeof d.journal);
    if (subject->call == PUT)
        draft_put(&d, variant);
    d.card = calloc(2, s->card_len + 64);
    if (d.card == NULL)
        exit(2);
    memcpy(d.card, s->card, s->card_len);
    memcpy(d.anchor, s->anchor, PAT_ANCHOR_BYTES);
    memcpy(d.buffer, d.arguments.buffer, d.arguments.buffer_len);
    d.arguments.anchor = d.anchor;
    d.arguments.card = d.card;
    d.arguments.buffer = d.buffer;
    d.arguments.plan = d.plan;
    d.arguments.journal = d.journal;
    uint64_t due = spoil_with(&d, subject, set, variant);
    struct outcome o = perform(&d.arguments);
    expect(o.answer == due,
           "%s at depth %u, faults %#x, variant %zu: answered %llu, and %llu is due", subject->name,
           s->depth, set, variant, (unsigned long long)o.answer, (unsigned long long)due);
    expect(due == 0 || all_unchanged(&o),
           "%s at depth %u, faults %#x, variant %zu: a refused call changed something",
           subject->name, s->depth, set, variant);
    settle(&o);
    free(d.card);
}

void test_refusals(void) {
    static const unsigned depths[] = {1, 2, 3, 6};
    for (size_t k = 0; k < 4; k++) {
        struct store s = used_store(depths[k]);
        for (const struct subject *subject = subjects; subject < subjects + subject_count;
             subject++)
            for (unsigned set = 0; set < 1u << subject->count; set++)
                for (size_t variant = 0; variant < (set & (set - 1) ? 3u : 16u); variant++)
                    try_set(subject, &s, set, variant + (set & (set - 1) ? set : 0));
        drop_store(&s);
    }
    struct store large = used_store(PAT_MAX_DEPTH);
    for (const struct subject *subject = subjects; subject < subjects + subject_count; subject++)
        for (unsigned k = 0; k < subject->count; k++)
            try_set(subject, &large, 1u << k, 5 * k);
    drop_store(&large);
}
