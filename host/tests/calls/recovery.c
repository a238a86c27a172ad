#include "recovery.h"

#include <stdio.h>
#include <string.h>

struct journalled must_journal(const struct store *s, uint64_t index, const uint8_t *block) {
    struct journalled w = {
        .old = copy_store(s), .new = copy_store(s), .journal_len = PAT_JOURNAL_BYTES(s->depth)};
    struct arguments a = arguments_for(JOURNALLED, s, index, block);
    struct outcome o = perform(&a);
    expect(o.answer == 0,
           "depth %u: a journalled write on an untouched card is accepted, and not answered %llu",
           s->depth, (unsigned long long)o.answer);
    memcpy(w.new.anchor, o.anchor.bytes, PAT_ANCHOR_BYTES);
    memcpy(w.new.card, o.card.bytes, s->card_len);
    memcpy(w.raised, o.raised.bytes, PAT_ANCHOR_BYTES);
    memcpy(w.ranges, o.ranges.bytes, PAT_RANGE_BYTES(s->depth));
    memcpy(w.journal, o.journal.bytes, w.journal_len);
    expect(unchanged(&o.buffer), "a journalled write leaves the block");
    settle(&o);
    return w;
}

void drop_journalled(struct journalled *w) {
    drop_store(&w->old);
    drop_store(&w->new);
}

uint64_t recover(struct store *s, const uint8_t *journal, size_t journal_len) {
    struct arguments a = arguments_for(RECOVER, s, 0, NULL);
    a.journal = journal;
    a.journal_len = journal_len;
    struct outcome o = perform(&a);
    uint64_t answer = o.answer;
    expect(unchanged(&o.anchor) && unchanged(&o.journal),
           "depth %u: a recovery leaves anchor and journal", s->depth);
    expect(answer == 0 || all_unchanged(&o), "depth %u: a refused recovery changed something",
           s->depth);
    memcpy(s->card, o.card.bytes, s->card_len);
    settle(&o);
    return answer;
}

void must_recover(const struct store *s, const uint8_t *journal, size_t journal_len,
                  const struct store *due, const char *what) {
    struct store copy = copy_store(s);
    uint64_t answer = recover(&copy, journal, journal_len);
    expect(answer == 0, "depth %u, %s: the recovery is accepted, and not answered %llu", s->depth,
           what, (unsigned long long)answer);
    expect(memcmp(copy.card, due->card, due->card_len) == 0, "depth %u, %s: the recovered card",
           s->depth, what);
    drop_store(&copy);
}
