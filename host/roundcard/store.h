// Putting out what a call changed, each step on its medium before the next begins.
#ifndef STORE_H
#define STORE_H

#include "journal.h"

// The three files, with the card's last write recovered in memory, and words for the user.
struct outgoing {
    const struct anchor *anchor;   // as the call left it
    const struct card *card;       // the same
    const struct journal *journal; // as it was read
    const char *done;              // what is so once all is out
};

// What a write gives besides the anchor and the card.
struct steps {
    const uint8_t *raised, *journal;
};

// Each first finishes a recovery: the bytes of the journal as it was read are put in their places,
// and all of the card is synced. Each gives 0, or the status of the error it reported.

// A write, in four steps: the anchor with H raised, the journal, the anchor with the new T, and the
// card's ranges.
int store_write(const struct request *request, const struct outgoing *out,
                const struct steps *steps);

// A wipe: the anchor, then the whole card; and the journal goes.
int store_wipe(const struct request *request, const struct outgoing *out);

int store_recovery(const struct request *request, const struct outgoing *out);

#endif
