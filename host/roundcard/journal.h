// The journal file, beside the card image: what the last write put on the card, for a recovery.
#ifndef JOURNAL_H
#define JOURNAL_H

#include "anchor.h"
#include "card.h"

struct journal {
    char *path; // beside the card, with links resolved
    bool there;
    uint8_t bytes[PAT_MAX_JOURNAL_BYTES + 1];
    size_t
        length; // of the bytes read, one more than the longest journal's for a file that is longer
    bool applies; // it is the last write's: its T is the anchor's, and its tag is right
    bool pending; // it applies, and not all of its bytes were on the card
};

// Where the journal of that card is, in memory that the caller frees, NULL with errno.
char *journal_path(const char *card);

// Reads the file, where there is one. Gives 0, or the status of the error it reported.
int journal_open(const struct request *request, struct journal *journal, const struct card *card);

void journal_close(struct journal *journal);

// Lets the library recover the card in memory, and sees whether that changed it. Gives the
// library's answer, which tests anchor and card where there is no file too.
uint64_t journal_recover(const struct anchor *anchor, struct card *card, struct journal *journal);

// What a journal is to a card that was recovered in memory.
enum standing {
    NO_JOURNAL,
    WRONG_TAG,     // it is damaged or another card's
    EARLIER_WRITE, // its T is below the anchor's
    LOST_WRITE,    // its T is above the anchor's: that write was cut before its new T stood
    LATER_WRITE,   // its T is above the anchor's H: the anchor is an old one
    IN_PLACE,      // all of its bytes were on the card
    PUT_IN_PLACE   // they were not
};

enum standing journal_standing(const struct anchor *anchor, const struct card *card,
                               const struct journal *journal);

// What a journal does to a card.
enum effect { PASSED_OVER, CHANGES_NOTHING, CHANGES };

// What the one beside the card does to it; the card in memory is then the recovered one. It reports
// nothing: a journal that cannot be read is passed over.
enum effect journal_effect(const struct anchor *anchor, struct card *card);

// Removes the file, for a card on which nothing is to be recovered any more, and what a cut left
// beside it. Warns where that fails: a journal has a round.
void journal_remove(const struct request *request, const char *path);

#endif
