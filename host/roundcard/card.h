// The card image: copied into memory before a call, and changed only in the ranges of a journal, or
// whole by a wipe.
#ifndef CARD_H
#define CARD_H

#include "request.h"

#include <sys/stat.h>

struct card {
    const char *path;
    int file;
    uint8_t *bytes;
    size_t length; // of the bytes read, one more than the longest card's for a file that is longer
    struct stat status;
};

enum purpose { TO_READ, TO_WRITE };

// Reads the image. Gives 0, or the status of the error it reported.
int card_open(const struct request *request, struct card *card, enum purpose purpose);

// Puts the new bytes of a journal of that depth, whose ranges are a write's, into their places of
// the image, or all of the card, so that they stand when this returns. False with errno.
bool card_put_journal(const struct card *card, const uint8_t *journal, uint64_t depth);
bool card_put_whole(const struct card *card);

// The same card with its bytes in memory that the caller frees, NULL where there is none.
struct card card_copy(const struct card *card);

void card_close(struct card *card);

// Whether a card of some depth has this length.
bool is_card_length(off_t length);

#endif
