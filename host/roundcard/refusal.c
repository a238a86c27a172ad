#include "refusal.h"
#include "mend.h"

#include <inttypes.h>
#include <stdio.h>

// The longest text, and the length of an anchor before there was H.
enum { LONGEST = 768, ANCHOR_BYTES_BEFORE = 32 };

static const char software[] = "the calling software";
static const char anchor[] = "the anchor";
static const char holder[] = "whoever has the card";
static const char keeper[] = "whoever keeps the journal";

static const struct remedy remedies[] = {
    [PAT_REFUSED_DEPTH] = {software,
                           "give a depth from 1 to 16, or the anchor file that format made"},
    [PAT_REFUSED_ROOT_NONCE] = {anchor,
                                "use the anchor file as format, write or wipe last left it"},
    [PAT_REFUSED_CARD_LENGTH] = {holder, "give the whole card image that belongs to this anchor"},
    [PAT_REFUSED_BLOCK_NUMBER] = {software, "give the number of a block that the card has"},
    [PAT_REFUSED_LENGTH] = {software, "give an anchor file of 40 bytes and a block of 64"},
    [PAT_REFUSED_RANGE_LENGTH] = {software, "give a range buffer of 16 bytes for each level"},
    [PAT_REFUSED_SPENT] = {anchor, "format a card under a new key, and write the rounds there"},
    [PAT_REFUSED_TAG] = {holder, "put back the card as format, write or wipe last left it"},
    [PAT_REFUSED_JOURNAL] =
        {keeper, "put back the journal as the last write left it; where 'roundcard "
                 "check' finds the card whole, or it is wiped, remove the journal; if it "
                 "is lost, remove it, and see with 'check --all' what is still read"},
};

struct situation situation_of(const struct anchor *anchor_file, const struct card *card) {
    struct situation situation = {.depth = anchor_depth(anchor_file),
                                  .root = anchor_root(anchor_file),
                                  .reserved = anchor_reserved(anchor_file),
                                  .anchor_len = anchor_file->length,
                                  .anchor_size = anchor_file->status.st_size,
                                  .anchor = anchor_file->bytes};
    if (card != NULL) {
        situation.card_len = card->length;
        situation.card = card->bytes;
    }
    return situation;
}

// The blocks under a node.
static void describe_node(char *text, const struct situation *s) {
    uint64_t node = pat_node(s->answer), leaves = (uint64_t)1 << s->depth, count = 1;
    while (node * count < leaves)
        count *= 2;
    uint64_t first = node * count - leaves;
    if (count == 1)
        snprintf(text, LONGEST, "the tag of node %" PRIu64 ", block %" PRIu64 ", is wrong", node,
                 first);
    else
        snprintf(text, LONGEST,
                 "the tag of node %" PRIu64 ", over blocks %" PRIu64 " to %" PRIu64 ", is wrong",
                 node, first, first + count - 1);
}

static void describe_length(char *text, const struct situation *s) {
    bool of_anchor = s->anchor_len != PAT_ANCHOR_BYTES;
    size_t length = of_anchor ? s->anchor_len : s->block_len;
    size_t right = of_anchor ? PAT_ANCHOR_BYTES : PAT_BLOCK_BYTES;
    const char *what = of_anchor ? "the anchor file" : "the new block";
    if (of_anchor && is_card_length(s->anchor_size))
        snprintf(text, LONGEST, "the anchor file has %lld bytes, as a card image has%s",
                 (long long)s->anchor_size,
                 s->card_len == PAT_ANCHOR_BYTES
                     ? ", and the card image has 40, as an anchor file has"
                     : "");
    else if (of_anchor && length == ANCHOR_BYTES_BEFORE)
        snprintf(
            text, LONGEST,
            "the anchor file has 32 bytes, and not 40: roundcard made it before version 0.6.0, "
            "and it has no reserved nonce H");
    else if (length > right)
        snprintf(text, LONGEST, "%s has more than %zu bytes", what, right);
    else
        snprintf(text, LONGEST, "%s has %zu bytes, and not %zu", what, length, right);
}

static void advise_on_length(char *text, const struct situation *s) {
    if (s->anchor_len == ANCHOR_BYTES_BEFORE)
        snprintf(text, LONGEST,
                 "read its rounds with the roundcard that made it, format another card with a new "
                 "key, and write them there");
    else if (s->anchor_len != PAT_ANCHOR_BYTES && is_card_length(s->anchor_size))
        snprintf(text, LONGEST, "%sgive ANCHOR first, and CARD behind it",
                 s->card_len == PAT_ANCHOR_BYTES ? "the two are swapped: " : "");
    else
        snprintf(text, LONGEST, "%s", remedies[PAT_REFUSED_LENGTH].advice);
}

static void describe_card(char *text, const struct situation *s) {
    size_t right = pat_card_bytes(s->depth);
    if (s->card_len > pat_card_bytes(PAT_MAX_DEPTH))
        snprintf(text, LONGEST, "the card image is longer than any card");
    else
        snprintf(text, LONGEST,
                 "the card image has %zu bytes, and a card of depth %" PRIu64 " has %zu",
                 s->card_len, s->depth, right);
}

static void describe_nonces(char *text, const struct situation *s) {
    if (s->root % s->depth == 0 && s->reserved % s->depth == 0)
        snprintf(text, LONGEST,
                 "the reserved nonce H is %" PRIu64 ", below the root nonce T, which is %" PRIu64,
                 s->reserved, s->root);
    else
        snprintf(text, LONGEST, "the %s is %" PRIu64 ", no multiple of the depth %" PRIu64,
                 s->root % s->depth != 0 ? "root nonce T" : "reserved nonce H",
                 s->root % s->depth != 0 ? s->root : s->reserved, s->depth);
}

static void describe_journal(char *text, const struct situation *s) {
    size_t length = s->journal == NULL ? 0 : s->journal->length;
    size_t right = PAT_JOURNAL_BYTES(s->depth);
    if (length > PAT_MAX_JOURNAL_BYTES)
        snprintf(text, LONGEST, "the journal file is longer than any journal");
    else if (length != right)
        snprintf(text, LONGEST,
                 "the journal file has %zu bytes, and a journal of depth %" PRIu64 " has %zu",
                 length, s->depth, right);
    else
        snprintf(text, LONGEST,
                 "the journal has a right tag and ranges that no write has: whoever made it has "
                 "the key");
}

static void describe(char *text, const struct situation *s) {
    switch (pat_refusal(s->answer)) {
    case PAT_REFUSED_DEPTH:
        snprintf(text, LONGEST, "the depth is %" PRIu64 ", and not 1 to 16", s->depth);
        break;
    case PAT_REFUSED_ROOT_NONCE:
        describe_nonces(text, s);
        break;
    case PAT_REFUSED_CARD_LENGTH:
        describe_card(text, s);
        break;
    case PAT_REFUSED_BLOCK_NUMBER:
        snprintf(text, LONGEST, "there is no block %" PRIu64 ": the last one is %" PRIu64, s->index,
                 ((uint64_t)1 << s->depth) - 1);
        break;
    case PAT_REFUSED_LENGTH:
        describe_length(text, s);
        break;
    case PAT_REFUSED_SPENT:
        snprintf(text, LONGEST, "the nonces are used up: H is %" PRIu64, s->reserved);
        break;
    case PAT_REFUSED_JOURNAL:
        describe_journal(text, s);
        break;
    case PAT_REFUSED_TAG:
        describe_node(text, s);
        break;
    default:
        snprintf(text, LONGEST, "the range buffer is too short");
    }
}

// What helps where no write does, and a card to put back is not there.
static const char else_help[] =
    "else format another card with a new key and write the rounds there; only where a wipe was "
    "cut, or no round on this card is wanted any more, wipe it: that empties all its blocks";

// Both children of the root change with every write and wipe.
static const char *remark(uint64_t node) {
    return node < 4 ? " (a card of another time than its anchor is refused here)" : "";
}

// What helps first. A card that is carried without its journal may have a write that was cut.
static const char *put_back(const struct situation *s) {
    return s->recovery == MISSES_JOURNAL
               ? "put back the card as format, write or wipe last left it, or put the journal of "
                 "its last write beside it and recover it"
               : remedies[PAT_REFUSED_TAG].advice;
}

// More on the wrong tag of a block: it can be replaced where a write of it is accepted.
static void advise_on_block(char *text, const struct situation *s, uint64_t node) {
    const char *plain = put_back(s);
    uint64_t index = node - ((uint64_t)1 << s->depth), hindrance = write_refused_at(s, node);
    if (hindrance == 0 && s->writes)
        snprintf(text, LONGEST, "%s, or write block %" PRIu64 " first and then block %" PRIu64,
                 plain, index, s->index);
    else if (hindrance == 0)
        snprintf(text, LONGEST, "%s, or write block %" PRIu64 " again", plain, index);
    else if (hindrance == (node ^ 1))
        snprintf(text, LONGEST,
                 "%s%s; no write mends blocks %" PRIu64 " and %" PRIu64
                 ", since each needs the other one right: %s",
                 plain, remark(node), index & ~(uint64_t)1, index | 1, else_help);
    else
        snprintf(text, LONGEST,
                 "%s; no write mends block %" PRIu64 ", since node %" PRIu64 " is wrong too: %s",
                 plain, index, hindrance, else_help);
}

// Where the journal's bytes are not all on the card.
static const char recovery[] =
    "some of the last write is not on the card, or is altered since: 'roundcard recover' puts its "
    "bytes in their places";

// More on a wrong tag. No write makes a node above the blocks right.
static void advise_on_tag(char *text, const struct situation *s) {
    uint64_t node = pat_node(s->answer);
    if (s->recovery == HELPS)
        snprintf(text, LONGEST, "%s, and mends it", recovery);
    else if (s->recovery == MAY_HELP)
        snprintf(text, LONGEST, "%s, and may mend a part of it; then see what is still refused",
                 recovery);
    else if (node >> s->depth != 0)
        advise_on_block(text, s, node);
    else
        snprintf(text, LONGEST, "%s%s; no write mends it: %s", put_back(s), remark(node),
                 else_help);
}

// Whether the library can have given the answer: a node with 8 alone, and one that the card has,
// and 4 and 8 at a good depth.
bool possible_answer(const struct situation *s) {
    unsigned number = pat_refusal(s->answer);
    uint64_t node = pat_node(s->answer);
    if (number == 0 || number >= sizeof remedies / sizeof *remedies)
        return false;
    if (number != PAT_REFUSED_TAG && node != 0)
        return false;
    if (number == PAT_REFUSED_NOT_AWAITED)
        return false;
    if (number == PAT_REFUSED_JOURNAL && s->journal == NULL)
        return false;
    if (number == PAT_REFUSED_BLOCK_NUMBER || number == PAT_REFUSED_TAG) {
        if (pat_card_bytes(s->depth) == 0)
            return false;
        return number != PAT_REFUSED_TAG || (node >= 2 && node >> s->depth < 2);
    }
    return true;
}

int explain_refusal(const struct request *request, const struct situation *s) {
    if (!possible_answer(s))
        return failure(request, STATUS_LIBRARY, "the library gave an unknown answer, %" PRIu64,
                       s->answer);
    unsigned number = pat_refusal(s->answer);
    char meaning[LONGEST], advice[LONGEST];
    struct remedy remedy = {remedies[number].who, advice};
    describe(meaning, s);
    if (number == PAT_REFUSED_TAG)
        advise_on_tag(advice, s);
    else if (number == PAT_REFUSED_LENGTH)
        advise_on_length(advice, s);
    else
        remedy.advice = remedies[number].advice;
    return refusal_failure(request, s->answer, meaning, &remedy, &s->details);
}
