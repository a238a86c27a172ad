// Writes a block.
#include "anchor.h"
#include "card.h"
#include "commands.h"
#include "input.h"
#include "json.h"
#include "refusal.h"
#include "report.h"
#include "store.h"
#include "text.h"

#include <inttypes.h>
#include <stdio.h>
#include <string.h>

// The new block, and by how much a longer one, or a text with a newline behind it, is known.
struct new_block {
    uint8_t bytes[PAT_BLOCK_BYTES + 2];
    size_t length;
};

static int take_bytes(const struct request *request, const char *path, struct new_block *new,
                      size_t limit) {
    struct input input = {.bytes = new->bytes, .limit = limit};
    int status = input_take(request, "the input", path, &input);
    new->length = input.length;
    return status;
}

static int refuse_text(const struct request *request, const char *how_many) {
    return failure(request, STATUS_USAGE, "the text has %s bytes, and a block has %d", how_many,
                   PAT_BLOCK_BYTES);
}

// A text of standard input, without the newline that ends its last line.
static int take_piped_text(const struct request *request, struct new_block *new) {
    int status = take_bytes(request, NULL, new, sizeof new->bytes);
    if (status != 0)
        return status;
    if (new->length > 0 && new->bytes[new->length - 1] == '\n')
        new->bytes[--new->length] = 0;
    return new->length > PAT_BLOCK_BYTES ? refuse_text(request, "more than 64") : 0;
}

static int take_given_text(const struct request *request, struct new_block *new) {
    const char *text = request->options[OPTION_TEXT];
    char length[32];
    new->length = strlen(text);
    snprintf(length, sizeof length, "%zu", new->length);
    if (new->length > PAT_BLOCK_BYTES)
        return refuse_text(request, length);
    memcpy(new->bytes, text, new->length);
    return 0;
}

static int take_text(const struct request *request, struct new_block *new) {
    bool piped = strcmp(request->options[OPTION_TEXT], "-") == 0;
    int status = piped ? take_piped_text(request, new) : take_given_text(request, new);
    if (status != 0)
        return status;
    if (!is_text(new->bytes, new->length))
        return failure(request, STATUS_USAGE, "the text is not UTF-8, or has control characters");
    new->length = PAT_BLOCK_BYTES;
    return 0;
}

static int take_input(const struct request *request, struct new_block *new) {
    *new = (struct new_block){.length = 0};
    if (request->options[OPTION_TEXT] != NULL)
        return take_text(request, new);
    return take_bytes(request, request->options[OPTION_INPUT], new, PAT_BLOCK_BYTES + 1);
}

// A write in memory, with what goes out for it.
struct writing {
    struct anchor anchor;
    struct card card;
    struct journal journal;
    uint64_t index;
    uint8_t raised[PAT_ANCHOR_BYTES], new_journal[PAT_MAX_JOURNAL_BYTES];
    uint8_t ranges[PAT_MAX_RANGE_BYTES];
};

static int report(const struct request *request, const struct writing *w, const char *done) {
    uint64_t depth = anchor_depth(&w->anchor), root = anchor_root(&w->anchor);
    size_t count = PAT_RANGES(depth);
    if (request->options[OPTION_JSON] == NULL) {
        printf("wrote block %" PRIu64 ": T is %" PRIu64 ", %zu ranges of the card changed\n",
               w->index, root, count);
        return finish_after(request, "%s", done);
    }
    json_open("write", 0);
    json_number("block", w->index);
    json_number("root_nonce", root);
    json_number("changes", root / depth);
    json_ranges("ranges", w->ranges, count);
    json_truth("recovered", w->journal.pending);
    json_close();
    return finish_after(request, "%s", done);
}

// Puts an accepted write out.
static int put_out(const struct request *request, const struct writing *w) {
    char done[64];
    snprintf(done, sizeof done, "block %" PRIu64 " is written", w->index);
    const struct outgoing out = {&w->anchor, &w->card, &w->journal, done};
    const struct steps steps = {w->raised, w->new_journal};
    int status = store_write(request, &out, &steps);
    if (status == 0 && w->journal.pending && request->options[OPTION_JSON] == NULL)
        notice(request, "the write before this one was not all on the card; now it is");
    return status == 0 ? report(request, w, done) : status;
}

// Where the journal of the write before is not there, what is damaged may be a cut of it, and the
// new T makes that journal an earlier one.
static void warn_of_damage(const struct request *request, const struct writing *w) {
    uint64_t answer = pat_check(w->anchor.bytes, w->anchor.length, w->card.bytes, w->card.length);
    if (pat_refusal(answer) == PAT_REFUSED_TAG)
        notice(request,
               "warning: the card is damaged, and the journal of its last write is not beside it: "
               "if that write was cut, no recovery brings its round back after this one");
}

// The tests of a write come in one order, whether the recovery before it or it makes them.
static int write_block(const struct request *request, struct writing *w,
                       const struct new_block *new) {
    uint64_t answer = journal_recover(&w->anchor, &w->card, &w->journal);
    bool misses_journal = !w->journal.applies && anchor_root(&w->anchor) != 0;
    if (answer == PAT_ACCEPTED)
        answer = pat_write_journalled(w->anchor.bytes, w->anchor.length, w->raised,
                                      sizeof w->raised, w->card.bytes, w->card.length, w->index,
                                      new->bytes, new->length, w->ranges, sizeof w->ranges,
                                      w->new_journal, PAT_JOURNAL_BYTES(anchor_depth(&w->anchor)));
    struct situation situation = situation_of(&w->anchor, &w->card);
    situation.answer = answer;
    situation.index = w->index;
    situation.block_len = new->length;
    situation.writes = true;
    situation.journal = &w->journal;
    situation.recovery = misses_journal ? MISSES_JOURNAL : NO_HELP;
    if (answer != PAT_ACCEPTED)
        return explain_refusal(request, &situation);
    if (misses_journal)
        warn_of_damage(request, w);
    return put_out(request, w);
}

static int write_files(const struct request *request, uint64_t index, const struct new_block *new) {
    struct writing w = {.index = index};
    int status = anchor_open(request, &w.anchor, EXCLUSIVE);
    if (status != 0)
        return status;
    status = card_open(request, &w.card, TO_WRITE);
    if (status == 0) {
        status = journal_open(request, &w.journal, &w.card);
        if (status == 0) {
            status = write_block(request, &w, new);
            journal_close(&w.journal);
        }
        card_close(&w.card);
    }
    anchor_close(&w.anchor);
    explicit_bzero(w.raised, sizeof w.raised);
    return status;
}

static int run_write(const struct request *request) {
    uint64_t index;
    struct new_block new;
    if (request->options[OPTION_INPUT] != NULL && request->options[OPTION_TEXT] != NULL)
        return failure(request, STATUS_USAGE, "only one of --input and --text can be given");
    if (!parse_number(request->words[2], &index))
        return failure(request, STATUS_USAGE, "%s is not a block number", request->words[2]);
    int status = take_input(request, &new);
    return status == 0 ? write_files(request, index, &new) : status;
}

static const char help[] =
    "usage: roundcard write [--input FILE | --text TEXT] [--json] ANCHOR CARD BLOCK\n"
    "\n"
    "Writes a block: 64 bytes from a file, from standard input, or text.\n"
    "\n"
    "  --input FILE  take the 64 bytes from a file; - is standard input\n"
    "  --text TEXT   take up to 64 bytes of text and put zeros behind it; with - the text\n"
    "                comes from standard input, less the newline that ends it\n"
    "  --json        report as a JSON object, with the ranges of the card that changed\n"
    "\n"
    "It goes out in four steps, each synced before the next: the anchor file with H raised,\n"
    "the journal file beside the card image, the anchor file with the new T, the changed\n"
    "ranges of the card image. The two files are replaced whole, and one write at a time is\n"
    "made. A cut at any moment loses at most this block: the next write, or 'roundcard\n"
    "recover', leaves the card as it was before the write where T is the old one, and as the\n"
    "write made it where T is the new one. Until then reads may be refused with 8. Without\n"
    "its journal beside it a card that was cut is a damaged one: a write that finds that\n"
    "warns, and goes on. All signals that can be held back wait until all is out.\n"
    "\n"
    "Refused 5: the anchor file has not 40 bytes. 1: depth. 2: T or H. 3: card length.\n"
    "10: the journal of the write before. 4: block number. 5: the block has not 64 bytes.\n"
    "7: the nonces are used up. 8: a wrong tag on the way to the block or beside it; the\n"
    "block that is replaced is not checked.\n";

const struct command write_command = {
    .name = "write",
    .help = help,
    .options = {{"--input", OPTION_INPUT, true}, {"--text", OPTION_TEXT, true}},
    .fewest_words = 3,
    .most_words = 3,
    .run = run_write,
};
