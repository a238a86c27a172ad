#include "journal.h"
#include "files.h"
#include "report.h"

#include <errno.h>
#include <fcntl.h>
#include <stdio.h>
#include <stdlib.h>
#include <string.h>
#include <unistd.h>

// Behind the name of the card image.
static const char suffix[] = ".roundcard-journal";

// Another card, of the longest length that a recovery is not refused for.
static uint8_t scratch[PAT_CARD_BYTES(PAT_MAX_DEPTH)];

char *journal_path(const char *card) {
    char *resolved = realpath(card, NULL);
    const char *base = resolved == NULL ? card : resolved;
    size_t length = strlen(base) + sizeof suffix;
    char *path = malloc(length);
    if (path != NULL)
        snprintf(path, length, "%s%s", base, suffix);
    free(resolved);
    return path;
}

// False with errno; no file is none of its failures.
static bool take(struct journal *journal, const char *card) {
    struct stat status;
    *journal = (struct journal){.path = journal_path(card)};
    if (journal->path == NULL)
        return false;
    int file = open_regular(journal->path, O_RDONLY, &status);
    if (file < 0)
        return errno == ENOENT;
    journal->there = true;
    bool taken = read_up_to(file, journal->bytes, sizeof journal->bytes, &journal->length);
    int reason = errno;
    close(file);
    errno = reason;
    return taken;
}

int journal_open(const struct request *request, struct journal *journal, const struct card *card) {
    if (take(journal, card->path))
        return 0;
    int status = journal->path == NULL
                     ? system_failure(request, "no memory for the journal")
                     : system_failure(request, "cannot open the journal file %s", journal->path);
    journal_close(journal);
    return status;
}

void journal_close(struct journal *journal) {
    free(journal->path);
    journal->path = NULL;
}

// Where there is no file, zeros stand for it, which are no journal of any write.
static uint64_t recover(const struct anchor *anchor, uint8_t *card, size_t length,
                        const struct journal *journal) {
    size_t journal_length =
        journal->there ? journal->length : PAT_JOURNAL_BYTES(anchor_depth(anchor));
    return pat_recover(anchor->bytes, anchor->length, card, length, journal->bytes, journal_length);
}

// Whether its tag is right: the library applies it then, under an anchor with the journal's own T.
// That changes the card it is tried on, which has nowhere the first of the journal's new bytes.
static bool has_right_tag(const struct anchor *anchor, size_t length,
                          const struct journal *journal) {
    struct anchor own = *anchor;
    const uint8_t *root = journal->bytes + PAT_JOURNAL_ROOT;
    memcpy(own.bytes + PAT_ANCHOR_ROOT, root, sizeof(uint64_t));
    memcpy(own.bytes + PAT_ANCHOR_RESERVED, root, sizeof(uint64_t));
    uint64_t depth = anchor_depth(anchor);
    uint8_t fill = (uint8_t)~journal->bytes[PAT_JOURNAL_RANGES + PAT_RANGE_BYTES(depth)];
    memset(scratch, fill, length);
    bool right = false;
    if (recover(&own, scratch, length, journal) == PAT_ACCEPTED)
        for (size_t k = 0; k < length && !right; k++)
            right = scratch[k] != fill;
    explicit_bzero(own.bytes, sizeof own.bytes);
    return right;
}

static uint64_t root_of(const struct journal *journal) {
    return pat_get_number(journal->bytes + PAT_JOURNAL_ROOT);
}

uint64_t journal_recover(const struct anchor *anchor, struct card *card, struct journal *journal) {
    size_t length = card->length < sizeof scratch ? card->length : sizeof scratch;
    memcpy(scratch, card->bytes, length);
    uint64_t answer = recover(anchor, card->bytes, card->length, journal);
    journal->pending = memcmp(scratch, card->bytes, length) != 0;
    journal->applies = journal->pending || (answer == PAT_ACCEPTED && journal->there &&
                                            root_of(journal) == anchor_root(anchor) &&
                                            has_right_tag(anchor, card->length, journal));
    return answer;
}

// A journal of zeros is none.
static bool is_none(const struct journal *journal) {
    for (size_t k = 0; k < journal->length; k++)
        if (journal->bytes[k] != 0)
            return false;
    return true;
}

enum standing journal_standing(const struct anchor *anchor, const struct card *card,
                               const struct journal *journal) {
    if (is_none(journal))
        return NO_JOURNAL;
    if (journal->applies)
        return journal->pending ? PUT_IN_PLACE : IN_PLACE;
    if (!has_right_tag(anchor, card->length, journal))
        return WRONG_TAG;
    if (root_of(journal) > anchor_reserved(anchor))
        return LATER_WRITE;
    return root_of(journal) < anchor_root(anchor) ? EARLIER_WRITE : LOST_WRITE;
}

enum effect journal_effect(const struct anchor *anchor, struct card *card) {
    struct journal journal;
    enum effect effect = PASSED_OVER;
    if (take(&journal, card->path) && journal_recover(anchor, card, &journal) == PAT_ACCEPTED &&
        journal.applies)
        effect = journal.pending ? CHANGES : CHANGES_NOTHING;
    journal_close(&journal);
    return effect;
}

static bool unlinked(const char *path) {
    return unlink(path) == 0 || errno == ENOENT;
}

void journal_remove(const struct request *request, const char *path) {
    struct stat status;
    char *beside = name_of_replacement(path);
    bool there = lstat(path, &status) == 0 || (beside != NULL && lstat(beside, &status) == 0);
    if (!unlinked(path) || beside == NULL || !unlinked(beside))
        notice(request, "warning: cannot remove the journal file %s, which has a round: %s", path,
               strerror(errno));
    else if (there)
        sync_directory_of(path);
    free(beside);
}
