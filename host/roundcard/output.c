#include "output.h"
#include "files.h"
#include "journal.h"
#include "report.h"
#include "signals.h"

#include <errno.h>
#include <fcntl.h>
#include <stdlib.h>
#include <unistd.h>

// The new name is not synced: a power cut leaves the old file or the new one.
static bool replace(const char *path, const struct stat *old, const uint8_t *bytes, size_t length) {
    struct replacement new;
    sigset_t before;
    hold_signals(&before);
    bool done = replacement_open_unlocked(&new, path, old) &&
                replacement_fill(&new, bytes, length) && replacement_commit(&new);
    replacement_close(&new);
    release_signals(&before);
    return done;
}

static bool put_through(const char *path, const uint8_t *bytes, size_t length) {
    int file = open(path, O_WRONLY | O_NONBLOCK | O_CLOEXEC);
    if (file < 0)
        return false;
    bool written = write_all(file, bytes, length);
    int reason = errno;
    bool closed = close(file) == 0;
    if (!written)
        errno = reason;
    return written && closed;
}

static int refuse_journal(const struct request *request, const char *path,
                          const struct card *card) {
    char *journal = journal_path(card->path);
    if (journal == NULL)
        return system_failure(request, "no memory for the journal");
    bool same = same_place(path, journal);
    free(journal);
    return same ? failure(request, STATUS_USAGE, "the output %s is the card's journal", path) : 0;
}

int output_put(const struct request *request, const char *path, const struct anchor *anchor,
               const struct card *card, const uint8_t *bytes, size_t length) {
    struct stat there, link;
    bool exists = stat(path, &there) == 0;
    if (!exists && (errno != ENOENT || lstat(path, &link) == 0))
        return system_failure(request, "cannot open the output %s", path);
    if (exists && (same_file(&there, &anchor->status) || same_file(&there, &card->status)))
        return failure(request, STATUS_USAGE, "the output %s is the anchor or the card", path);
    int status = refuse_journal(request, path, card);
    if (status != 0)
        return status;
    bool regular = !exists || S_ISREG(there.st_mode);
    if (regular ? replace(path, exists ? &there : NULL, bytes, length)
                : put_through(path, bytes, length))
        return 0;
    if (!regular && errno == ENXIO)
        return failure(request, STATUS_FILE, "nobody reads from the output %s", path);
    return system_failure(request, "cannot write the output %s%s", path,
                          exists && regular ? ", which is as it was" : "");
}
