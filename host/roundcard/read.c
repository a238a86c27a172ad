// Reads a block.
#include "anchor.h"
#include "card.h"
#include "commands.h"
#include "json.h"
#include "output.h"
#include "refusal.h"
#include "report.h"
#include "text.h"

#include <inttypes.h>
#include <stdio.h>
#include <stdlib.h>
#include <string.h>
#include <unistd.h>

// The file that the block goes to, NULL for standard output.
static const char *output_of(const struct request *request) {
    const char *path = request->options[OPTION_OUTPUT];
    return path == NULL || strcmp(path, "-") == 0 ? NULL : path;
}

// Sees that all is out, and else says what is in the file.
static int finish(const struct request *request) {
    const char *path = output_of(request);
    return path == NULL ? finish_output(request)
                        : finish_after(request, "the output %s is written", path);
}

static int put_json(const struct request *request, uint64_t index, const uint8_t *block) {
    size_t length = unpadded(block);
    json_open("read", 0);
    json_number("block", index);
    json_hex("hex", block, PAT_BLOCK_BYTES);
    if (is_text(block, length))
        json_text("text", block, length);
    else
        json_null("text");
    json_close();
    return finish(request);
}

static int put_text(const struct request *request, uint64_t index, const uint8_t *block) {
    size_t length = unpadded(block);
    if (!is_text(block, length))
        return failure(request, STATUS_DATA,
                       "block %" PRIu64 " is not text; --hex or --output give its bytes", index);
    fwrite(block, 1, length, stdout);
    putchar('\n');
    return finish_output(request);
}

// In the form that was asked for; on a terminal never as plain bytes.
static int put_out(const struct request *request, uint64_t index, const uint8_t *block) {
    if (request->options[OPTION_JSON] != NULL)
        return put_json(request, index, block);
    if (request->options[OPTION_TEXT] != NULL)
        return put_text(request, index, block);
    if (output_of(request) != NULL)
        return 0;
    if (request->options[OPTION_HEX] != NULL || isatty(STDOUT_FILENO)) {
        print_hex(block, PAT_BLOCK_BYTES);
        putchar('\n');
    } else {
        fwrite(block, 1, PAT_BLOCK_BYTES, stdout);
    }
    return finish_output(request);
}

// A recovery may help where a tag is wrong.
static int refuse(const struct request *request, const struct anchor *anchor, struct card *card,
                  struct situation *situation) {
    uint8_t block[PAT_BLOCK_BYTES];
    if (pat_refusal(situation->answer) != PAT_REFUSED_TAG)
        return explain_refusal(request, situation);
    struct card recovered = card_copy(card);
    enum effect effect =
        recovered.bytes == NULL ? CHANGES_NOTHING : journal_effect(anchor, &recovered);
    if (effect == CHANGES)
        situation->recovery =
            pat_read(anchor->bytes, anchor->length, recovered.bytes, recovered.length,
                     situation->index, block, sizeof block) == PAT_ACCEPTED
                ? HELPS
                : MAY_HELP;
    else if (effect == PASSED_OVER && situation->root != 0)
        situation->recovery = MISSES_JOURNAL;
    free(recovered.bytes);
    return explain_refusal(request, situation);
}

static int read_block(const struct request *request, struct anchor *anchor, struct card *card,
                      uint64_t index) {
    uint8_t block[PAT_BLOCK_BYTES];
    uint64_t answer = pat_read(anchor->bytes, anchor->length, card->bytes, card->length, index,
                               block, sizeof block);
    struct situation situation = situation_of(anchor, card);
    situation.answer = answer;
    situation.index = index;
    if (answer != 0)
        return refuse(request, anchor, card, &situation);
    const char *path = output_of(request);
    int status = path == NULL ? 0 : output_put(request, path, anchor, card, block, PAT_BLOCK_BYTES);
    return status == 0 ? put_out(request, index, block) : status;
}

static int run_read(const struct request *request) {
    uint64_t index;
    int forms = (request->options[OPTION_OUTPUT] != NULL) +
                (request->options[OPTION_TEXT] != NULL) + (request->options[OPTION_HEX] != NULL);
    if (forms > 1)
        return failure(request, STATUS_USAGE,
                       "only one of --output, --text and --hex can be given");
    if (!parse_number(request->words[2], &index))
        return failure(request, STATUS_USAGE, "%s is not a block number", request->words[2]);
    struct anchor anchor;
    struct card card;
    int status = anchor_open(request, &anchor, SHARED);
    if (status != 0)
        return status;
    status = card_open(request, &card, TO_READ);
    if (status == 0) {
        status = read_block(request, &anchor, &card, index);
        card_close(&card);
    }
    anchor_close(&anchor);
    return status;
}

static const char help[] =
    "usage: roundcard read [--output FILE | --text | --hex] [--json] ANCHOR CARD BLOCK\n"
    "\n"
    "Reads a block, once every tag from the root down to it is right. Its 64 bytes go to\n"
    "standard output as they are, or to a terminal in hex.\n"
    "\n"
    "  --output FILE  put the 64 bytes into a file, which is replaced whole or left as it\n"
    "                 is; - is standard output\n"
    "  --text         print the block as text, without the zeros behind it\n"
    "  --hex          print the block as 128 hex digits\n"
    "  --json         report as a JSON object, with the block as \"hex\" and, where it\n"
    "                 is text, as \"text\"\n"
    "\n"
    "Refused 5: the anchor file has not 40 bytes. 1: depth. 2: T or H. 3: card length.\n"
    "4: block number. 8: a wrong tag, the first from the root downwards.\n"
    "Status 65: --text, and the block is not text.\n";

const struct command read_command = {
    .name = "read",
    .help = help,
    .options = {{"--output", OPTION_OUTPUT, true},
                {"--text", OPTION_TEXT, false},
                {"--hex", OPTION_HEX, false}},
    .fewest_words = 3,
    .most_words = 3,
    .run = run_read,
};
