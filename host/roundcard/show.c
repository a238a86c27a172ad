// Shows what an anchor file says, except its key, what calls on its card cost, and whether a card
// image has the length for it.
#include "anchor.h"
#include "card.h"
#include "commands.h"
#include "json.h"
#include "refusal.h"
#include "report.h"

#include <inttypes.h>
#include <stdio.h>

// The limits that do not need a tag, as every call tests them.
static uint64_t limit(const struct situation *s, bool with_card) {
    if (s->anchor_len != PAT_ANCHOR_BYTES)
        return PAT_REFUSED_LENGTH;
    if (pat_card_bytes(s->depth) == 0)
        return PAT_REFUSED_DEPTH;
    if (s->root % s->depth != 0 || s->reserved % s->depth != 0 || s->reserved < s->root)
        return PAT_REFUSED_ROOT_NONCE;
    if (with_card && s->card_len != pat_card_bytes(s->depth))
        return PAT_REFUSED_CARD_LENGTH;
    return 0;
}

static int report(const struct request *request, const struct situation *s) {
    if (request->options[OPTION_JSON] == NULL) {
        uint64_t blocks = (uint64_t)1 << s->depth;
        char lost[80];
        tell_lost_attempts(lost, sizeof lost, (s->reserved - s->root) / s->depth);
        printf("depth         %" PRIu64 "\n", s->depth);
        printf("blocks        %" PRIu64 ", numbers 0 to %" PRIu64 "\n", blocks, blocks - 1);
        printf("root nonce T  %" PRIu64 "\n", s->root);
        printf("reserved H    %" PRIu64 "%s%s\n", s->reserved, *lost == '\0' ? "" : ": ", lost);
        printf("changes made  %" PRIu64
               ", writes and wipes together, and attempts that were lost\n",
               s->reserved / s->depth);
        printf("card size     %zu bytes\n", pat_card_bytes(s->depth));
        printf("AES calls     read %zu, write %zu, check %zu, wipe %zu\n", PAT_AES_READ(s->depth),
               PAT_AES_WRITE(s->depth), PAT_AES_CHECK(s->depth), PAT_AES_WIPE(s->depth));
        return finish_output(request);
    }
    json_open("show", 0);
    json_state(s->depth, s->root, s->reserved);
    json_aes_calls(s->depth);
    json_close();
    return finish_output(request);
}

static int run_show(const struct request *request) {
    struct anchor anchor;
    bool with_card = request->word_count == 2;
    int status = anchor_open(request, &anchor, SHARED);
    if (status != 0)
        return status;
    struct situation situation = situation_of(&anchor, NULL);
    if (with_card) {
        struct card card;
        status = card_open(request, &card, TO_READ);
        if (status == 0) {
            situation.card_len = card.length;
            card_close(&card);
        }
    }
    anchor_close(&anchor);
    if (status != 0)
        return status;
    situation.answer = limit(&situation, with_card);
    return situation.answer == 0 ? report(request, &situation)
                                 : explain_refusal(request, &situation);
}

static const char help[] =
    "usage: roundcard show [--json] ANCHOR [CARD]\n"
    "\n"
    "Shows the depth, the root nonce T, the reserved nonce H, the number of changes made,\n"
    "which are writes and wipes, with the attempts that were lost, and the size of the card\n"
    "that an anchor file is for, and how many AES calls the library makes for a read, a\n"
    "write, a check and a wipe of it. It never shows the key. With a card image, it also sees\n"
    "whether the image has that size; it checks no tag.\n"
    "\n"
    "The AES calls are those of one call that is accepted. A refusal with 8 makes as many at\n"
    "most, and every other refusal none.\n"
    "\n"
    "  --json  report as a JSON object\n"
    "\n"
    "Refused 5: the anchor file has not 40 bytes. 1: depth. 2: T or H. 3: card length.\n";

const struct command show_command = {
    .name = "show",
    .help = help,
    .fewest_words = 1,
    .most_words = 2,
    .run = run_show,
};
