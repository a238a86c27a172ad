// Makes an empty card image and its anchor file.
#include "anchor.h"
#include "commands.h"
#include "files.h"
#include "input.h"
#include "journal.h"
#include "json.h"
#include "refusal.h"
#include "report.h"
#include "signals.h"
#include "text.h"

#include <errno.h>
#include <inttypes.h>
#include <stdio.h>
#include <stdlib.h>
#include <string.h>
#include <sys/random.h>
#include <unistd.h>

// The two files while they are made. The key is in the anchor.
struct making {
    int lock; // on an anchor file that is to be replaced
    uint8_t anchor[PAT_ANCHOR_BYTES];
    uint8_t *card;
    size_t card_len;
    char *journal; // of the card that is replaced
    struct replacement new_anchor, new_card;
};

static int draw_key(const struct request *request, uint8_t *key) {
    for (size_t length = 0; length < PAT_KEY_BYTES;) {
        ssize_t count = getrandom(key + length, PAT_KEY_BYTES - length, 0);
        if (count > 0)
            length += (size_t)count;
        else if (errno != EINTR)
            return system_failure(request, "cannot draw a key from the system's random source");
    }
    return 0;
}

static int load_key(const struct request *request, const char *path, uint8_t *key) {
    uint8_t bytes[PAT_KEY_BYTES + 1] = {0};
    struct input input = {.bytes = bytes, .limit = sizeof bytes};
    int status = input_take(request, "the key file", path, &input);
    if (status == 0 && input.length != PAT_KEY_BYTES)
        status = failure(request, STATUS_FILE, "the key file %s has %s than %d bytes", path,
                         input.length < PAT_KEY_BYTES ? "fewer" : "more", PAT_KEY_BYTES);
    else if (status == 0)
        warn_if_open(request, path, &input.status);
    memcpy(key, bytes, PAT_KEY_BYTES);
    explicit_bzero(bytes, sizeof bytes);
    return status;
}

// Lets the library make anchor and card in memory.
static int make(const struct request *request, struct making *m, uint64_t depth) {
    const char *key_file = request->options[OPTION_KEY_FILE];
    int status =
        key_file == NULL ? draw_key(request, m->anchor) : load_key(request, key_file, m->anchor);
    if (status != 0)
        return status;
    pat_put_number(m->anchor + PAT_ANCHOR_DEPTH, depth);
    m->card_len = pat_card_bytes(depth);
    m->card = malloc(m->card_len + 1);
    if (m->card == NULL)
        return system_failure(request, "no memory for the card");
    uint64_t answer = pat_format(m->anchor, sizeof m->anchor, m->card, m->card_len);
    struct situation situation = {.answer = answer, .depth = depth, .anchor_len = PAT_ANCHOR_BYTES};
    return answer == 0 ? 0 : explain_refusal(request, &situation);
}

static int open_error(const struct request *request, const char *what, const char *path) {
    if (errno == EEXIST)
        return failure(request, STATUS_FILE, "%s %s is there already; --force replaces it", what,
                       path);
    return system_failure(request, "cannot write %s %s", what, path);
}

// Both files are written; from here on a failure says what is changed.
static int put_in_place(const struct request *request, struct making *m) {
    const char *anchor = request->words[0], *card = request->words[1];
    if (!replacement_commit(&m->new_card))
        return system_failure(request, "cannot put the card image %s in its place", card);
    if (!replacement_commit(&m->new_anchor))
        return system_failure(request,
                              "cannot replace the anchor file %s; the card image %s is replaced",
                              anchor, card);
    if (!replacement_sync(&m->new_card) || !replacement_sync(&m->new_anchor))
        return system_failure(request, "%s and %s are made, but may not outlive a power cut",
                              anchor, card);
    journal_remove(request, m->journal);
    return 0;
}

// A journal of the card that was here before is not lost unasked: it may be all that is left of a
// write.
static int look_for_journal(const struct request *request, struct making *m) {
    struct stat status;
    m->journal = journal_path(request->words[1]);
    if (m->journal == NULL)
        return system_failure(request, "no memory for the journal");
    if (same_place(request->words[0], m->journal))
        return failure(request, STATUS_USAGE, "the anchor %s would be the card's journal",
                       request->words[0]);
    if (request->options[OPTION_FORCE] == NULL && lstat(m->journal, &status) == 0)
        return failure(request, STATUS_FILE,
                       "the journal file %s is there already, of a card that was here; --force "
                       "removes it",
                       m->journal);
    return 0;
}

// Puts both files out, the card first.
static int put_out(const struct request *request, struct making *m) {
    const char *anchor = request->words[0], *card = request->words[1];
    bool over = request->options[OPTION_FORCE] != NULL;
    struct stat one, other;
    if (!replacement_open(&m->new_anchor, anchor, S_IRUSR | S_IWUSR, over))
        return open_error(request, "the anchor file", anchor);
    if (stat(anchor, &one) == 0 && stat(card, &other) == 0 && same_file(&one, &other))
        return failure(request, STATUS_USAGE, "anchor and card are the same file");
    if (!replacement_open(&m->new_card, card, 0666, over))
        return open_error(request, "the card image", card);
    if (!replacement_fill(&m->new_card, m->card, m->card_len))
        return system_failure(request, "cannot write the card image %s", card);
    if (!replacement_fill(&m->new_anchor, m->anchor, sizeof m->anchor))
        return system_failure(request, "cannot write the anchor file %s", anchor);
    return put_in_place(request, m);
}

// Whether two files that are there have the lengths of a card and of an anchor, in this order.
static bool swapped(const char *anchor, const char *card) {
    struct stat one, other;
    return stat(anchor, &one) == 0 && stat(card, &other) == 0 && is_card_length(one.st_size) &&
           other.st_size == PAT_ANCHOR_BYTES;
}

// The same with the lock on an anchor file that is to be replaced, and signals held back.
static int put_out_undisturbed(const struct request *request, struct making *m) {
    const char *anchor = request->words[0], *card = request->words[1];
    struct stat old;
    sigset_t before;
    if (request->options[OPTION_FORCE] != NULL) {
        if (swapped(anchor, card))
            return failure(request, STATUS_USAGE,
                           "%s has the length of a card and %s that of an anchor: the two are "
                           "swapped; give ANCHOR first",
                           anchor, card);
        m->lock = anchor_lock(request, anchor, EXCLUSIVE, &old);
        if (m->lock < 0 && errno != ENOENT)
            return anchor_lock_failure(request, anchor);
    }
    hold_signals(&before);
    int status = put_out(request, m);
    replacement_close(&m->new_card);
    replacement_close(&m->new_anchor);
    release_signals(&before);
    return status;
}

static int finish(const struct request *request) {
    return finish_after(request, "%s and %s are made", request->words[0], request->words[1]);
}

static int report(const struct request *request, uint64_t depth) {
    uint64_t blocks = (uint64_t)1 << depth;
    size_t bytes = pat_card_bytes(depth);
    if (request->options[OPTION_JSON] == NULL) {
        printf("formatted ");
        print_name(request->words[1]);
        printf(": depth %" PRIu64 ", %" PRIu64 " blocks, %zu bytes\nits anchor is ", depth, blocks,
               bytes);
        print_name(request->words[0]);
        printf(": it has the key, keep it private\n");
        return finish(request);
    }
    json_open("format", 0);
    json_string("anchor", request->words[0]);
    json_string("card", request->words[1]);
    json_number("depth", depth);
    json_number("blocks", blocks);
    json_number("card_bytes", bytes);
    json_close();
    return finish(request);
}

static int run_format(const struct request *request) {
    const char *digits = request->options[OPTION_DEPTH];
    uint64_t depth;
    if (digits == NULL)
        return failure(request, STATUS_USAGE, "--depth is missing");
    if (!parse_number(digits, &depth))
        return failure(request, STATUS_USAGE, "--depth %s is not a number", digits);
    struct making m = {.lock = -1};
    m.new_anchor = m.new_card = (struct replacement){.file = -1, .directory = -1};
    int status = make(request, &m, depth);
    if (status == 0)
        status = look_for_journal(request, &m);
    if (status == 0)
        status = put_out_undisturbed(request, &m);
    if (m.lock >= 0)
        close(m.lock);
    explicit_bzero(m.anchor, sizeof m.anchor);
    free(m.card);
    free(m.journal);
    return status == 0 ? report(request, depth) : status;
}

static const char help[] =
    "usage: roundcard format --depth N [--key-file FILE] [--force] [--json] ANCHOR CARD\n"
    "\n"
    "Makes a card image with 2^N empty blocks of 64 bytes, and its anchor file.\n"
    "\n"
    "  --depth N        from 1 to 16; the image has 104 * 2^N - 48 bytes\n"
    "  --key-file FILE  a key of 16 bytes, - for standard input; without it one is drawn\n"
    "                   from the system's random source\n"
    "  --force          replace files that are there already; the old card's journal file\n"
    "                   goes too\n"
    "  --json           report as a JSON object\n"
    "\n"
    "A key must be formatted only once: a second format under it would let old cards\n"
    "pass for new ones. Let the tool draw the key, or give a fresh file each time.\n"
    "The card image is put out whole before the anchor file, which only its owner can\n"
    "read. A cut leaves the old anchor file, an empty one or none: format again.\n"
    "\n"
    "Refused 1: the depth is not 1 to 16.\n";

const struct command format_command = {
    .name = "format",
    .help = help,
    .options = {{"--depth", OPTION_DEPTH, true},
                {"--key-file", OPTION_KEY_FILE, true},
                {"--force", OPTION_FORCE, false}},
    .fewest_words = 2,
    .most_words = 2,
    .run = run_format,
};
