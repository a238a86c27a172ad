// What a refusal means here, and who can mend it.
#ifndef REFUSAL_H
#define REFUSAL_H

#include "anchor.h"
#include "card.h"
#include "journal.h"
#include "report.h"

// What a recovery would do for a call that is refused for a tag: nothing, or nothing since the
// journal of the last write is not there, or it helps.
enum recovery { NO_HELP, MISSES_JOURNAL, MAY_HELP, HELPS };

// What a call was given.
struct situation {
    uint64_t answer;
    uint64_t depth, root, reserved, index;
    size_t anchor_len, card_len, block_len;
    off_t anchor_size;            // of the file, where it is longer than what was read
    const uint8_t *anchor, *card; // on which reads can be tried, where there is a card
    bool writes;
    const struct journal *journal; // where the call was given one
    enum recovery recovery;
    struct details details;
};

// The situation of a call on these two; the card may be NULL.
struct situation situation_of(const struct anchor *anchor, const struct card *card);

// Reports the refusal and gives its number, which is the exit status.
int explain_refusal(const struct request *request, const struct situation *situation);

// Whether the library can have given the answer.
bool possible_answer(const struct situation *situation);

#endif
