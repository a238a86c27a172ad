// Journalled writes beside writes, on histories, and recoveries with journals that are not the last
// write's: each leaves the card as it is.
#include "recovery.h"
#include "tests.h"

#include <stdlib.h>
#include <string.h>

static uint64_t draw(uint64_t below) {
    static uint64_t count = 1u << 20;
    uint8_t bytes[8];
    pat_put_number(bytes, count++);
    return (digest(bytes, sizeof bytes) >> 11) % below;
}

// The journal has the new T, the list, and the card's new bytes in its order.
static void expect_journal(const struct journalled *w) {
    unsigned depth = w->old.depth;
    const uint8_t *at = w->journal + PAT_JOURNAL_RANGES;
    expect(pat_get_number(w->journal + PAT_JOURNAL_ROOT) == nonce_of(&w->new, PAT_ANCHOR_ROOT),
           "depth %u: the journal has the new T", depth);
    expect(memcmp(at, w->ranges, PAT_RANGE_BYTES(depth)) == 0,
           "depth %u: the journal has the list of ranges", depth);
    at += PAT_RANGE_BYTES(depth);
    for (size_t k = 0; k < PAT_RANGES(depth); k++) {
        size_t length = pat_range_length(w->ranges, k);
        expect(memcmp(at, w->new.card + pat_range_start(w->ranges, k), length) == 0,
               "depth %u: the journal has the new bytes of range %zu", depth, k);
        at += length;
    }
    expect(at + PAT_TAG_BYTES == w->journal + w->journal_len, "depth %u: and a tag", depth);
}

// The same write by pat_write; and that what was in raised anchor and journal before plays no part.
static void expect_same_write(const struct journalled *w, uint64_t index, const uint8_t *block) {
    struct arguments a = arguments_for(WRITE, &w->old, index, block);
    a.ranges_len += draw(40);
    struct outcome plain = perform(&a);
    expect(plain.answer == 0 && memcmp(plain.anchor.bytes, w->new.anchor, PAT_ANCHOR_BYTES) == 0 &&
               memcmp(plain.card.bytes, w->new.card, w->new.card_len) == 0 &&
               memcmp(plain.ranges.bytes, w->ranges, PAT_RANGE_BYTES(w->old.depth)) == 0,
           "depth %u: a journalled write leaves what a write does", w->old.depth);
    a.call = JOURNALLED;
    a.raised = w->old.anchor;
    a.journal = w->journal;
    struct outcome again = perform(&a);
    expect(again.answer == 0 && memcmp(again.journal.bytes, w->journal, w->journal_len) == 0 &&
               memcmp(again.raised.bytes, w->raised, PAT_ANCHOR_BYTES) == 0 &&
               unchanged_from(&again.ranges, PAT_RANGE_BYTES(w->old.depth)),
           "depth %u: the same journal and raised anchor, whatever was there", w->old.depth);
    settle(&plain);
    settle(&again);
}

// What the raised anchor is, and that it goes with the card of before as the old one did.
static void expect_raised(const struct journalled *w) {
    struct store raised = copy_store(&w->old);
    lose_attempt(&raised);
    expect(memcmp(w->raised, raised.anchor, PAT_ANCHOR_BYTES) == 0,
           "depth %u: the raised anchor has the new H and the old T", w->old.depth);
    struct arguments a = arguments_for(CHECK, &raised, 0, NULL);
    struct outcome o = perform(&a);
    expect(o.answer == 0, "depth %u: the card of before is whole under it", w->old.depth);
    settle(&o);
    drop_store(&raised);
}

static struct journalled write_both(const struct store *s, uint64_t index) {
    uint8_t block[PAT_BLOCK_BYTES];
    fill(block, sizeof block, draw(UINT64_MAX));
    struct journalled w = must_journal(s, index, block);
    expect_journal(&w);
    expect_same_write(&w, index, block);
    expect_raised(&w);
    return w;
}

// Journals that are not applied to the card of the write before, under the write's own anchors.
static void expect_passed_over(const struct journalled *w, const struct journalled *before) {
    struct store cut = copy_store(&w->old);
    uint8_t journal[MOST_JOURNAL] = {0};
    size_t length = w->journal_len;
    must_recover(&cut, w->journal, length, &w->old, "T still old");
    memcpy(cut.anchor, w->new.anchor, PAT_ANCHOR_BYTES);
    must_recover(&cut, w->journal, length, &w->new, "T new");
    must_recover(&cut, before->journal, length, &cut, "the journal of before");
    must_recover(&cut, journal, length, &cut, "zeros");
    for (size_t byte = 0; byte < length; byte += length < 300 ? 1 : 7) {
        memcpy(journal, w->journal, length);
        journal[byte] ^= (uint8_t)(1 << draw(8));
        must_recover(&cut, journal, length, &cut, "a bit flipped");
    }
    memcpy(journal, before->journal, length);
    memcpy(journal, w->journal, 8);
    must_recover(&cut, journal, length, &cut, "the new T before an old journal");
    cut.anchor[draw(PAT_KEY_BYTES)] ^= 1;
    must_recover(&cut, w->journal, length, &cut, "another key");
    drop_store(&cut);
}

// A lost attempt's journal is passed over under every later anchor, that of the next write too.
static void expect_lost(const struct journalled *lost, const struct journalled *next) {
    struct store s = copy_store(&next->old);
    must_recover(&s, lost->journal, lost->journal_len, &s, "a lost write's journal");
    memcpy(s.anchor, next->new.anchor, PAT_ANCHOR_BYTES);
    must_recover(&s, lost->journal, lost->journal_len, &s, "a lost write's journal under the next");
    drop_store(&s);
}

static void go_on(struct store *s, const struct journalled *w) {
    memcpy(s->anchor, w->new.anchor, PAT_ANCHOR_BYTES);
    memcpy(s->card, w->new.card, s->card_len);
}

static void history(unsigned depth, unsigned writes) {
    struct store s = make_store(depth);
    uint64_t blocks = (uint64_t)1 << depth;
    struct journalled before = write_both(&s, blocks - 1);
    uint8_t zeros[MOST_JOURNAL] = {0};
    must_recover(&s, zeros, before.journal_len, &s, "zeros at T = 0");
    go_on(&s, &before);
    for (unsigned k = 0; k < writes; k++) {
        if (k == writes / 2)
            must_wipe(&s);
        struct journalled lost = write_both(&s, draw(blocks));
        if (draw(3) == 0)
            memcpy(s.anchor, lost.raised, PAT_ANCHOR_BYTES);
        else
            go_on(&s, &lost);
        struct journalled w = write_both(&s, draw(blocks));
        expect_passed_over(&w, &before);
        if (nonce_of(&s, PAT_ANCHOR_ROOT) != nonce_of(&lost.new, PAT_ANCHOR_ROOT))
            expect_lost(&lost, &w);
        go_on(&s, &w);
        drop_journalled(&lost);
        drop_journalled(&before);
        before = w;
    }
    drop_journalled(&before);
    drop_store(&s);
}

void test_journals(void) {
    for (unsigned depth = 1; depth <= 12; depth++)
        history(depth, depth <= 4 ? 12 : 2);
}
