// The four steps of a journalled write, cut anywhere: each byte that is being written is old, new
// or junk. A recovery then leaves the card of before where T is the old one, and the new one where
// it is new; and so does one that follows a cut recovery.
#include "recovery.h"
#include "tests.h"

#include <stdlib.h>
#include <string.h>

enum { MIXTURES = 60 };

// What is on the media: the store, and the journal.
struct media {
    struct store store;
    uint8_t journal[MOST_JOURNAL];
};

static uint64_t draw(uint64_t below) {
    static uint64_t count = 1u << 21;
    uint8_t bytes[8];
    pat_put_number(bytes, count++);
    return (digest(bytes, sizeof bytes) >> 11) % below;
}

static uint8_t junk_for(uint8_t old, uint8_t new) {
    uint8_t junk = (uint8_t)draw(256);
    while (junk == old || junk == new)
        junk++;
    return junk;
}

// How the bytes of a step are torn: those before the place are new, those behind it old, and the
// one there is old, new or junk; or each is drawn.
struct tear {
    size_t place;  // of the bytes of the step, counted from 0
    unsigned kind; // 0 old, 1 new, 2 junk
    bool drawn;
};

static uint8_t torn_byte(const struct tear *tear, size_t k, uint8_t old, uint8_t new) {
    unsigned kind = tear->drawn        ? (unsigned)draw(3)
                    : k == tear->place ? tear->kind
                                       : k < tear->place;
    return kind == 0 ? old : kind == 1 ? new : junk_for(old, new);
}

// The journal on its way out, over one of before.
static void tear_journal(struct media *m, const struct journalled *w, const uint8_t *before,
                         const struct tear *tear) {
    for (size_t k = 0; k < w->journal_len; k++)
        m->journal[k] = torn_byte(tear, k, before[k], w->journal[k]);
}

// The ranges on their way out, over what the card has there.
static void tear_ranges(struct media *m, const struct journalled *w, const struct tear *tear) {
    size_t k = 0;
    for (size_t range = 0; range < PAT_RANGES(w->old.depth); range++) {
        size_t start = pat_range_start(w->ranges, range);
        size_t end = start + pat_range_length(w->ranges, range);
        for (size_t byte = start; byte < end; byte++, k++)
            m->store.card[byte] = torn_byte(tear, k, m->store.card[byte], w->new.card[byte]);
    }
}

// A card as it goes with T, which reads and checks accept.
static void expect_due(const struct media *m, const struct journalled *w, const char *what) {
    const struct store *due =
        nonce_of(&m->store, PAT_ANCHOR_ROOT) == nonce_of(&w->new, PAT_ANCHOR_ROOT) ? &w->new
                                                                                   : &w->old;
    must_recover(&m->store, m->journal, w->journal_len, due, what);
}

static struct media media_of(const struct journalled *w, const uint8_t *anchor,
                             const uint8_t *journal) {
    struct media m = {.store = copy_store(&w->old)};
    memcpy(m.store.anchor, anchor, PAT_ANCHOR_BYTES);
    memcpy(m.journal, journal, w->journal_len);
    return m;
}

// A cut in the second step: T is old, and whatever the journal is, the card stays.
static void cut_journal(const struct journalled *w, const uint8_t *before,
                        const struct tear *tear) {
    struct media m = media_of(w, w->raised, before);
    tear_journal(&m, w, before, tear);
    expect_due(&m, w, "a cut in the journal");
    drop_store(&m.store);
}

// A cut in the last step, and then one in the recovery.
static void cut_ranges(const struct journalled *w, const struct tear *tear) {
    struct media m = media_of(w, w->new.anchor, w->journal);
    tear_ranges(&m, w, tear);
    expect_due(&m, w, "a cut in the ranges");
    const struct tear again = {
        .place = draw(40 * w->old.depth + 56), .kind = (unsigned)draw(3), .drawn = draw(2) == 0};
    tear_ranges(&m, w, &again);
    expect_due(&m, w, "a cut in the recovery");
    drop_store(&m.store);
}

// Cuts between the steps.
static void cut_between(const struct journalled *w, const uint8_t *before) {
    const struct {
        const uint8_t *anchor, *journal;
        const char *what;
    } cuts[] = {{w->old.anchor, before, "nothing out"},
                {w->raised, before, "the raised anchor out"},
                {w->raised, w->journal, "the journal out"},
                {w->new.anchor, w->journal, "T out"}};
    for (size_t k = 0; k < sizeof cuts / sizeof *cuts; k++) {
        struct media m = media_of(w, cuts[k].anchor, cuts[k].journal);
        expect_due(&m, w, cuts[k].what);
        drop_store(&m.store);
    }
    struct media whole = media_of(w, w->new.anchor, w->journal);
    memcpy(whole.store.card, w->new.card, w->new.card_len);
    expect_due(&whole, w, "all out");
    drop_store(&whole.store);
}

// Every place and kind of tear, and random mixtures.
static void cut_everywhere(const struct journalled *w, const uint8_t *before) {
    cut_between(w, before);
    struct tear tear = {0};
    for (; tear.place < w->journal_len; tear.place++)
        for (tear.kind = 0; tear.kind < 3; tear.kind++) {
            cut_journal(w, before, &tear);
            if (tear.place < 40 * w->old.depth + 56)
                cut_ranges(w, &tear);
        }
    tear.drawn = true;
    for (unsigned k = 0; k < MIXTURES; k++) {
        cut_journal(w, before, &tear);
        cut_ranges(w, &tear);
    }
}

// Of every block, a write behind another one, in places behind a lost one.
static void cut_writes(unsigned depth) {
    struct store s = make_store(depth);
    uint8_t block[PAT_BLOCK_BYTES], before[MOST_JOURNAL] = {0};
    for (uint64_t index = 0; index >> depth == 0; index++) {
        fill(block, sizeof block, index + depth);
        struct journalled w = must_journal(&s, index * 5 % ((uint64_t)1 << depth), block);
        cut_everywhere(&w, before);
        memcpy(before, w.journal, w.journal_len);
        memcpy(s.anchor, index % 3 == 1 ? w.raised : w.new.anchor, PAT_ANCHOR_BYTES);
        if (index % 3 != 1)
            memcpy(s.card, w.new.card, s.card_len);
        drop_journalled(&w);
    }
    drop_store(&s);
}

void test_cuts(void) {
    for (unsigned depth = 1; depth <= 3; depth++)
        cut_writes(depth);
}
