// Journalled writes whose cards, anchors, ranges and journals are known from model.py, and journals
// of no write that have a right tag.
#include "recovery.h"
#include "tests.h"

#include <stdio.h>
#include <string.h>

// A write and what is left after it. Where the history is another than that of the row before, it
// starts on a formatted card, wiped first at a T where that is not 0.
struct known_journal {
    const char *history;
    unsigned depth;
    uint64_t wiped;
    unsigned lost; // how many attempts were lost just before
    uint64_t index;
    uint64_t old, root; // T before the write, and T and H after it
    uint64_t card;      // its digest
    const char *block, *ranges, *journal;
};

struct strange_journal {
    unsigned depth;
    const char *what, *journal;
};

#include "known_journals.h"

static struct store start(const struct known_journal *row) {
    struct store s = make_store(row->depth);
    if (row->wiped != 0) {
        set_nonces(&s, row->wiped, row->wiped);
        must_wipe(&s);
    }
    return s;
}

static void expect_written(const struct known_journal *row, const struct journalled *w,
                           const char *name) {
    uint8_t expected[MOST_JOURNAL];
    size_t length = unhex(expected, row->ranges);
    expect(length == PAT_RANGE_BYTES(row->depth) && memcmp(w->ranges, expected, length) == 0,
           "%s: the ranges", name);
    length = unhex(expected, row->journal);
    expect(length == PAT_JOURNAL_BYTES(row->depth) && memcmp(w->journal, expected, length) == 0,
           "%s: the journal", name);
    expect(digest(w->new.card, w->new.card_len) == row->card, "%s: the card", name);
    memcpy(expected, w->old.anchor, PAT_ANCHOR_BYTES);
    expect(pat_get_number(expected + PAT_ANCHOR_ROOT) == row->old, "%s: T before", name);
    pat_put_number(expected + PAT_ANCHOR_RESERVED, row->root);
    expect(memcmp(w->raised, expected, PAT_ANCHOR_BYTES) == 0, "%s: the raised anchor", name);
    pat_put_number(expected + PAT_ANCHOR_ROOT, row->root);
    expect(memcmp(w->new.anchor, expected, PAT_ANCHOR_BYTES) == 0, "%s: the anchor", name);
}

// The card of before under the raised anchor, and under the new one.
static void expect_recoveries(const struct journalled *w, const char *name) {
    struct store cut = copy_store(&w->old);
    memcpy(cut.anchor, w->raised, PAT_ANCHOR_BYTES);
    must_recover(&cut, w->journal, w->journal_len, &w->old, name);
    memcpy(cut.anchor, w->new.anchor, PAT_ANCHOR_BYTES);
    must_recover(&cut, w->journal, w->journal_len, &w->new, name);
    drop_store(&cut);
    must_recover(&w->new, w->journal, w->journal_len, &w->new, name);
}

static void follow(const struct known_journal *row, struct store *s, const char *name) {
    uint8_t block[PAT_BLOCK_BYTES];
    unhex(block, row->block);
    for (unsigned k = 0; k < row->lost; k++)
        lose_attempt(s);
    struct journalled w = must_journal(s, row->index, block);
    expect_written(row, &w, name);
    expect_recoveries(&w, name);
    memcpy(s->anchor, w.new.anchor, PAT_ANCHOR_BYTES);
    memcpy(s->card, w.new.card, s->card_len);
    drop_journalled(&w);
}

// Refused under the anchor whose T it has; under any other it is passed over, and so it is where
// its tag is wrong.
static void try_strange(const struct strange_journal *row) {
    static const uint8_t block[PAT_BLOCK_BYTES];
    uint8_t journal[MOST_JOURNAL];
    size_t length = unhex(journal, row->journal);
    struct store s = make_store(row->depth);
    must_write(&s, 0, block);
    expect(recover(&s, journal, length) == PAT_REFUSED_JOURNAL, "depth %u, %s: refused with 10",
           row->depth, row->what);
    journal[length - 1] ^= 1;
    must_recover(&s, journal, length, &s, row->what);
    journal[length - 1] ^= 1;
    must_write(&s, 0, block);
    must_recover(&s, journal, length, &s, row->what);
    drop_store(&s);
}

void test_known_journals(void) {
    struct store s = {0};
    unsigned depths = 0;
    for (size_t k = 0; k < sizeof known_journals / sizeof *known_journals; k++) {
        const struct known_journal *row = &known_journals[k];
        char name[64];
        snprintf(name, sizeof name, "journal %s, row %zu of known_journals.h", row->history, k);
        if (k == 0 || strcmp(row->history, row[-1].history) != 0) {
            drop_store(&s);
            s = start(row);
        }
        follow(row, &s, name);
        depths |= 1u << row->depth;
    }
    drop_store(&s);
    expect(depths == 0x1fffe, "known_journals.h has a journal of every depth");
    size_t strange = sizeof strange_journals / sizeof *strange_journals;
    expect(strange > 100, "only %zu journals of no write", strange);
    for (size_t k = 0; k < strange; k++)
        try_strange(&strange_journals[k]);
}
