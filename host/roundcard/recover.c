// Puts the bytes of the last write in their places, where a cut kept it from that.
#include "anchor.h"
#include "card.h"
#include "commands.h"
#include "journal.h"
#include "json.h"
#include "refusal.h"
#include "report.h"
#include "store.h"
#include "text.h"

#include <inttypes.h>
#include <stdio.h>

// What the journal is, as a word for programs and as a sentence.
static const struct {
    const char *word, *sentence;
} standings[] = {
    [NO_JOURNAL] = {"none", "there is no journal, and none is needed: T is 0"},
    [WRONG_TAG] = {"wrong tag", "the journal has a wrong tag: it is damaged, or another card's. "
                                "Where 'roundcard check' finds the card whole, it is not needed"},
    [EARLIER_WRITE] = {"earlier write",
                       "the journal is of an earlier write than the anchor's last change"},
    [LOST_WRITE] = {"lost write", "the last write was cut before its new T stood, and the card was "
                                  "not touched: write the block again"},
    [LATER_WRITE] = {"later write", "the anchor is older than the journal: use the last one"},
    [IN_PLACE] = {"in place", "all bytes of the last write are in their places"},
    [PUT_IN_PLACE] = {"put in place", "the bytes of the last write are put in their places"},
};

// Nothing to do, and why. Without its journal a write that was cut cannot be told from damage.
static void print_nothing(const struct anchor *anchor, const struct journal *journal,
                          enum standing standing) {
    uint64_t root = anchor_root(anchor);
    uint64_t count = (anchor_reserved(anchor) - root) / anchor_depth(anchor);
    char lost[80];
    tell_lost_attempts(lost, sizeof lost, count);
    printf("nothing to do: ");
    if (standing == NO_JOURNAL && root != 0) {
        printf("%s; if its last write was cut, put ",
               journal->there ? "the journal beside the card is all zeros"
                              : "there is no journal beside the card");
        print_name(journal->path);
        printf(" of that write back before anything is written");
    } else {
        printf("%s", standings[standing].sentence);
    }
    if (count > (standing == LOST_WRITE))
        printf("; %s: write %s again", lost, count == 1 ? "its block" : "their blocks");
    putchar('\n');
}

static int report(const struct request *request, const struct anchor *anchor,
                  const struct journal *journal, enum standing standing) {
    uint64_t depth = anchor_depth(anchor);
    bool changed = standing == PUT_IN_PLACE;
    if (request->options[OPTION_JSON] != NULL) {
        json_open("recover", 0);
        json_truth("recovered", changed);
        json_string("journal", standings[standing].word);
        json_number("root_nonce", anchor_root(anchor));
        json_number("reserved_nonce", anchor_reserved(anchor));
        json_ranges("ranges", journal->bytes + PAT_JOURNAL_RANGES, changed ? PAT_RANGES(depth) : 0);
        json_close();
    } else if (changed) {
        printf("recovered: %s; %zu ranges of the card changed\n", standings[standing].sentence,
               PAT_RANGES(depth));
    } else {
        print_nothing(anchor, journal, standing);
    }
    return changed ? finish_after(request, "the card is recovered") : finish_output(request);
}

static int recover(const struct request *request, const struct anchor *anchor, struct card *card,
                   struct journal *journal) {
    struct situation situation = situation_of(anchor, card);
    situation.journal = journal;
    situation.answer = journal_recover(anchor, card, journal);
    if (situation.answer != PAT_ACCEPTED)
        return explain_refusal(request, &situation);
    enum standing standing = journal_standing(anchor, card, journal);
    const struct outgoing out = {anchor, card, journal, "the card is recovered"};
    int status = store_recovery(request, &out);
    return status == 0 ? report(request, anchor, journal, standing) : status;
}

static int run_recover(const struct request *request) {
    struct anchor anchor;
    struct card card;
    struct journal journal;
    int status = anchor_open(request, &anchor, EXCLUSIVE);
    if (status != 0)
        return status;
    status = card_open(request, &card, TO_WRITE);
    if (status == 0) {
        status = journal_open(request, &journal, &card);
        if (status == 0) {
            status = recover(request, &anchor, &card, &journal);
            journal_close(&journal);
        }
        card_close(&card);
    }
    anchor_close(&anchor);
    return status;
}

static const char help[] =
    "usage: roundcard recover [--json] ANCHOR CARD\n"
    "\n"
    "Finishes a write that was cut: where its new T is in the anchor file, the bytes of its\n"
    "journal, CARD.roundcard-journal, are put in their places on the card image. Else the\n"
    "card was not touched, and nothing is to be done. It says which it was. A recovery that\n"
    "is cut is made again. Every write and wipe recovers first, by itself.\n"
    "\n"
    "Without a journal of the last write it cannot see whether that write was cut: if it was,\n"
    "put that journal back before anything is written.\n"
    "\n"
    "It checks no tag of the card: what was damaged besides is still refused with 8. After a\n"
    "wipe that was cut it has nothing to do: wipe the card again.\n"
    "\n"
    "  --json  report as a JSON object\n"
    "\n"
    "Refused 5: the anchor file has not 40 bytes. 1: depth. 2: T or H. 3: card length.\n"
    "10: the journal has another length, or the ranges of no write.\n";

const struct command recover_command = {
    .name = "recover",
    .help = help,
    .fewest_words = 2,
    .most_words = 2,
    .run = run_recover,
};
