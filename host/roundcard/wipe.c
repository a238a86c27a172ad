// Empties a card under the same key.
#include "anchor.h"
#include "card.h"
#include "commands.h"
#include "json.h"
#include "question.h"
#include "refusal.h"
#include "report.h"
#include "store.h"
#include "text.h"

#include <inttypes.h>
#include <stdio.h>
#include <string.h>

// The files, under the lock.
struct wiping {
    struct anchor anchor;
    struct card card;
    struct journal journal;
};

// Gives 0, or the status of the error it reported, with nothing left open. The second time, where
// somebody was asked meanwhile, no warning is said again.
static int begin(const struct request *request, struct wiping *w, bool again) {
    int status = again ? anchor_open_again(request, &w->anchor, EXCLUSIVE)
                       : anchor_open(request, &w->anchor, EXCLUSIVE);
    if (status != 0)
        return status;
    status = card_open(request, &w->card, TO_WRITE);
    if (status == 0) {
        status = journal_open(request, &w->journal, &w->card);
        if (status != 0)
            card_close(&w->card);
    }
    if (status != 0)
        anchor_close(&w->anchor);
    return status;
}

static void end(struct wiping *w) {
    journal_close(&w->journal);
    card_close(&w->card);
    anchor_close(&w->anchor);
}

// Lets the library recover the card in memory, as before every change. A journal that is refused
// changes nothing, and cannot keep anybody from a wipe, which keeps nothing of the card.
static void recover(struct wiping *w) {
    (void)journal_recover(&w->anchor, &w->card, &w->journal);
}

// Lets it wipe card and anchor in memory.
static int make(const struct request *request, struct wiping *w) {
    uint64_t answer = pat_wipe(w->anchor.bytes, w->anchor.length, w->card.bytes, w->card.length);
    struct situation situation = situation_of(&w->anchor, &w->card);
    situation.answer = answer;
    return answer == 0 ? 0 : explain_refusal(request, &situation);
}

static int report(const struct request *request, const struct anchor *anchor, const char *done) {
    uint64_t depth = anchor_depth(anchor), root = anchor_root(anchor);
    if (request->options[OPTION_JSON] != NULL) {
        json_open("wipe", 0);
        json_state(depth, root, anchor_reserved(anchor));
        json_close();
    } else {
        printf("wiped ");
        print_name(request->words[1]);
        printf(": all %" PRIu64 " blocks are empty, T is %" PRIu64 "\n", (uint64_t)1 << depth,
               root);
    }
    return finish_after(request, "%s", done);
}

static int put_out(const struct request *request, const struct wiping *w) {
    const struct outgoing out = {&w->anchor, &w->card, &w->journal, "the card is wiped"};
    int status = store_wipe(request, &out);
    return status == 0 ? report(request, &w->anchor, out.done) : status;
}

static void say_loss(const struct request *request, const struct wiping *w, bool whole) {
    notice(request,
           "every round on the card %s will be lost: all its %" PRIu64 " blocks are emptied",
           w->card.path, (uint64_t)1 << anchor_depth(&w->anchor));
    if (!whole)
        notice(request,
               "this card is damaged, or is not the one of the anchor %s: a check of it is refused",
               w->anchor.path);
}

// Asks, once it is seen that the wipe is not refused, and with the lock given back meanwhile. Keeps
// the anchor that the wipe would leave.
static int ask(const struct request *request, uint8_t *asked) {
    struct wiping w;
    int status = begin(request, &w, false);
    if (status != 0)
        return status;
    recover(&w);
    bool whole = pat_check(w.anchor.bytes, w.anchor.length, w.card.bytes, w.card.length) == 0;
    status = make(request, &w);
    if (status == 0) {
        memcpy(asked, w.anchor.bytes, PAT_ANCHOR_BYTES);
        say_loss(request, &w, whole);
    }
    end(&w);
    if (status != 0 ||
        answered_yes("No earlier copy of the card will be accepted again. Type yes to wipe it: "))
        return status;
    return failure(request, STATUS_UNCONFIRMED, "the answer is not yes: nothing is changed");
}

// What was asked of one anchor is not done to another.
static int wipe(const struct request *request, const uint8_t *asked) {
    struct wiping w;
    int status = begin(request, &w, asked != NULL);
    if (status != 0)
        return status;
    recover(&w);
    status = make(request, &w);
    if (status == 0 && asked != NULL && memcmp(asked, w.anchor.bytes, PAT_ANCHOR_BYTES) != 0)
        status = failure(request, STATUS_UNCONFIRMED,
                         "another process changed the anchor file %s before the answer: nothing is "
                         "wiped",
                         w.anchor.path);
    if (status == 0)
        status = put_out(request, &w);
    end(&w);
    return status;
}

static int run_wipe(const struct request *request) {
    uint8_t asked[PAT_ANCHOR_BYTES];
    if (request->options[OPTION_YES] != NULL)
        return wipe(request, NULL);
    if (request->options[OPTION_JSON] != NULL || !can_ask())
        return failure(request, STATUS_USAGE,
                       "a wipe loses every round on the card: it needs --yes with --json, and "
                       "where no terminal can be asked");
    int status = ask(request, asked);
    if (status == 0)
        status = wipe(request, asked);
    explicit_bzero(asked, sizeof asked);
    return status;
}

static const char help[] =
    "usage: roundcard wipe [--yes] [--json] ANCHOR CARD\n"
    "\n"
    "Empties a card for good, under the same key. Every round on it is lost, and no earlier\n"
    "copy of the card will be accepted again. It looks at no byte of the card: a damaged one\n"
    "of the right size becomes a good, empty one.\n"
    "\n"
    "  --yes   do not ask. On a terminal the tool asks first, and does nothing unless the\n"
    "          answer is yes; --yes is needed with --json, and where standard input or\n"
    "          standard error is no terminal.\n"
    "  --json  report as a JSON object\n"
    "\n"
    "The anchor file is replaced whole, then the card image is written, and its journal file\n"
    "is removed; one wipe or write at a time. A cut before the new anchor file is in place\n"
    "changes nothing but what the recovery before it does. A cut after it leaves a card that\n"
    "is in part older than its anchor: a check refuses it with 8, and a read gives an empty\n"
    "block or is refused. Wipe it again: that mends it, whatever the cut left. All signals\n"
    "that can be held back wait until all is out.\n"
    "\n"
    "Refused 5: the anchor file has not 40 bytes. 1: depth. 2: T or H. 3: card length.\n"
    "7: the nonces are used up. Status 77: the answer is not yes, or the anchor file changed\n"
    "before the answer.\n";

const struct command wipe_command = {
    .name = "wipe",
    .help = help,
    .options = {{"--yes", OPTION_YES, false}},
    .fewest_words = 2,
    .most_words = 2,
    .run = run_wipe,
};
