#include "card.h"
#include "files.h"
#include "pat.h"
#include "report.h"

#include <errno.h>
#include <fcntl.h>
#include <stdlib.h>
#include <string.h>
#include <unistd.h>

// What is read of a file: all of it, and of one that is too long for any card one byte more than
// the longest.
static size_t wanted(const struct stat *status) {
    size_t longest = pat_card_bytes(PAT_MAX_DEPTH);
    return 1 + (status->st_size < (off_t)longest ? (size_t)status->st_size : longest);
}

int card_open(const struct request *request, struct card *card, enum purpose purpose) {
    *card = (struct card){.path = request->words[1]};
    card->file = open_regular(card->path, purpose == TO_READ ? O_RDONLY : O_RDWR, &card->status);
    if (card->file < 0)
        return system_failure(request, "cannot open the card image %s%s", card->path,
                              purpose == TO_READ ? "" : " for writing");
    size_t limit = wanted(&card->status);
    card->bytes = malloc(limit);
    if (card->bytes != NULL && read_up_to(card->file, card->bytes, limit, &card->length))
        return 0;
    int status = system_failure(request, "cannot read the card image %s", card->path);
    card_close(card);
    return status;
}

bool card_put_journal(const struct card *card, const uint8_t *journal, uint64_t depth) {
    const uint8_t *ranges = journal + PAT_JOURNAL_RANGES, *bytes = ranges + PAT_RANGE_BYTES(depth);
    for (size_t k = 0; k < PAT_RANGES(depth); k++) {
        size_t length = pat_range_length(ranges, k);
        if (!write_at(card->file, bytes, length, (off_t)pat_range_start(ranges, k)))
            return false;
        bytes += length;
    }
    return fsync(card->file) == 0;
}

bool card_put_whole(const struct card *card) {
    return write_at(card->file, card->bytes, card->length, 0) && fsync(card->file) == 0;
}

struct card card_copy(const struct card *card) {
    struct card copy = *card;
    copy.bytes = malloc(card->length + 1);
    if (copy.bytes != NULL)
        memcpy(copy.bytes, card->bytes, card->length);
    return copy;
}

void card_close(struct card *card) {
    free(card->bytes);
    close(card->file);
}

bool is_card_length(off_t length) {
    for (uint64_t depth = 1; depth <= PAT_MAX_DEPTH; depth++)
        if (length == (off_t)pat_card_bytes(depth))
            return true;
    return false;
}
