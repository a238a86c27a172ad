// A library that does nothing and answers what the environment says, for answers that the real one
// does not have.
#include "pat.h"

#include <stdlib.h>

static uint64_t odd_answer(void) {
    return strtoull(getenv("ANSWER"), NULL, 10);
}

uint64_t pat_format(uint8_t *anchor, size_t anchor_len, uint8_t *card, size_t card_len) {
    (void)anchor, (void)anchor_len, (void)card, (void)card_len;
    return odd_answer();
}

uint64_t pat_read(const uint8_t *anchor, size_t anchor_len, const uint8_t *card, size_t card_len,
                  uint64_t index, uint8_t *buffer, size_t buffer_len) {
    (void)anchor, (void)anchor_len, (void)card, (void)card_len;
    (void)index, (void)buffer, (void)buffer_len;
    return odd_answer();
}

uint64_t pat_write_journalled(uint8_t *anchor, size_t anchor_len, uint8_t *raised,
                              size_t raised_len, uint8_t *card, size_t card_len, uint64_t index,
                              const uint8_t *block, size_t block_len, uint8_t *ranges,
                              size_t ranges_len, uint8_t *journal, size_t journal_len) {
    (void)anchor, (void)anchor_len, (void)raised, (void)raised_len, (void)card, (void)card_len;
    (void)index, (void)block, (void)block_len, (void)ranges, (void)ranges_len;
    (void)journal, (void)journal_len;
    return odd_answer();
}

uint64_t pat_recover(const uint8_t *anchor, size_t anchor_len, uint8_t *card, size_t card_len,
                     const uint8_t *journal, size_t journal_len) {
    (void)anchor, (void)anchor_len, (void)card, (void)card_len, (void)journal, (void)journal_len;
    const char *own = getenv("RECOVER_ANSWER");
    return own == NULL ? odd_answer() : strtoull(own, NULL, 10);
}

uint64_t pat_wipe(uint8_t *anchor, size_t anchor_len, uint8_t *card, size_t card_len) {
    (void)anchor, (void)anchor_len, (void)card, (void)card_len;
    return odd_answer();
}

uint64_t pat_check(const uint8_t *anchor, size_t anchor_len, const uint8_t *card, size_t card_len) {
    (void)anchor, (void)anchor_len, (void)card, (void)card_len;
    const char *own = getenv("CHECK_ANSWER");
    return own == NULL ? odd_answer() : strtoull(own, NULL, 10);
}
