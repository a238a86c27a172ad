// A round written with a journal, the power lost on its way out, and the card recovered; the round
// read back, and refused once somebody has altered the card; then the card wiped.
#include <pat.h>

#include <stdio.h>
#include <string.h>

enum { DEPTH = 2 };

// What outlives a power cut: the chip's memory, a journal, and the card outside.
static uint8_t chip[PAT_ANCHOR_BYTES], journal_kept[PAT_JOURNAL_BYTES(DEPTH)];
static uint8_t card_kept[PAT_CARD_BYTES(DEPTH)];

// A journalled write, whose four steps go out one after the other. The power fails while the last
// range is on its way.
static int write_and_be_cut(uint64_t index, const uint8_t *block) {
    uint8_t anchor[PAT_ANCHOR_BYTES], raised[PAT_ANCHOR_BYTES], card[PAT_CARD_BYTES(DEPTH)];
    uint8_t ranges[PAT_RANGE_BYTES(DEPTH)], journal[PAT_JOURNAL_BYTES(DEPTH)];
    memcpy(anchor, chip, sizeof anchor);
    memcpy(card, card_kept, sizeof card);
    if (pat_write_journalled(anchor, sizeof anchor, raised, sizeof raised, card, sizeof card, index,
                             block, PAT_BLOCK_BYTES, ranges, sizeof ranges, journal,
                             sizeof journal) != PAT_ACCEPTED)
        return 0;
    memcpy(chip, raised, sizeof chip);
    memcpy(journal_kept, journal, sizeof journal_kept);
    memcpy(chip, anchor, sizeof chip);
    for (size_t k = 0; k < PAT_RANGES(DEPTH); k++) {
        unsigned start = pat_range_start(ranges, k), length = pat_range_length(ranges, k);
        printf("copy %2u bytes at %3u to the card\n", length, start);
        if (k + 1 == PAT_RANGES(DEPTH))
            length /= 2; // the cut
        memcpy(card_kept + start, card + start, length);
    }
    return 1;
}

static uint64_t check(void) {
    return pat_check(chip, sizeof chip, card_kept, sizeof card_kept);
}

static void tell(const char *when, uint64_t answer) {
    printf("%s: refused %u at node %u: %s\n", when, pat_refusal(answer), (unsigned)pat_node(answer),
           pat_refusal_text(answer));
}

int main(void) {
    uint8_t block[PAT_BLOCK_BYTES] = "van 7: round 12", buffer[PAT_BLOCK_BYTES];
    memcpy(chip, "sixteen byte key", PAT_KEY_BYTES); // a product draws its key at random
    pat_put_number(chip + PAT_ANCHOR_DEPTH, DEPTH);
    if (pat_format(chip, sizeof chip, card_kept, sizeof card_kept) != 0 ||
        !write_and_be_cut(3, block))
        return 1;
    tell("cut", check());
    if (pat_recover(chip, sizeof chip, card_kept, sizeof card_kept, journal_kept,
                    sizeof journal_kept) != 0 ||
        check() != 0 ||
        pat_read(chip, sizeof chip, card_kept, sizeof card_kept, 3, buffer, sizeof buffer) != 0)
        return 1;
    printf("recovered; block 3: %s\n", (const char *)buffer);

    card_kept[sizeof card_kept - 20] ^= 1;
    uint64_t answer =
        pat_read(chip, sizeof chip, card_kept, sizeof card_kept, 3, buffer, sizeof buffer);
    tell("altered", answer);
    if (pat_refusal(answer) != PAT_REFUSED_TAG)
        return 1;

    if (pat_wipe(chip, sizeof chip, card_kept, sizeof card_kept) != 0)
        return 1;
    answer = check();
    printf("wiped: %s, under the same key\n", answer == 0 ? "an empty card" : "refused");
    return answer == 0 ? 0 : 1;
}
