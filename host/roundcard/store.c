#include "store.h"
#include "files.h"
#include "report.h"
#include "signals.h"

#include <errno.h>
#include <sys/resource.h>
#include <unistd.h>

// Whether a file of that length can be written: once the anchor is replaced it would be too late to
// see.
static bool within_limit(uint64_t length) {
    struct rlimit limit;
    if (getrlimit(RLIMIT_FSIZE, &limit) != 0 || limit.rlim_cur == RLIM_INFINITY ||
        length <= limit.rlim_cur)
        return true;
    errno = EFBIG;
    return false;
}

// Where the last range of a journal ends on the card.
static uint64_t end_of(const uint8_t *journal, uint64_t depth) {
    const uint8_t *ranges = journal + PAT_JOURNAL_RANGES;
    size_t last = PAT_RANGES(depth) - 1;
    return (uint64_t)pat_range_start(ranges, last) + pat_range_length(ranges, last);
}

// How the files are left where the first step fails.
static const char *left(const struct outgoing *out) {
    return out->journal->pending ? "the last write is recovered, and nothing else is changed"
                                 : "nothing is changed";
}

// Puts the last write's bytes in their places, and sees that all of the card stands: another
// process may have been ended before it did. They go out even where the card was read with them:
// after a sync that failed, what is read may be on no medium, and another sync alone would not put
// it there. The anchor that they go with has to stand first.
static bool settle(const struct outgoing *out) {
    if (!out->journal->applies)
        return fsync(out->card->file) == 0;
    return fsync(out->anchor->file) == 0 && sync_directory_of(out->anchor->path) &&
           card_put_journal(out->card, out->journal->bytes, anchor_depth(out->anchor));
}

// What can be seen to fail before anything is changed, and then the recovery.
static int begin(const struct request *request, const struct outgoing *out, uint64_t card_end) {
    const char *card = out->card->path;
    if (!within_limit(card_end))
        return system_failure(request, "cannot write the card image %s; nothing is changed", card);
    if (settle(out))
        return 0;
    return system_failure(request, "cannot write the card image %s%s", card,
                          out->journal->applies ? " whole: 'roundcard recover' tries again"
                                                : "; nothing is changed");
}

enum put { PUT, NOT_REPLACED, NOT_SYNCED };

// Replaces the anchor file. It stays locked until the replacement is closed, so that nobody takes
// it for the last one while other steps follow.
static enum put put_anchor(struct replacement *new, const char *path, const uint8_t *bytes) {
    if (!replacement_open(new, path, S_IRUSR | S_IWUSR, true) ||
        !replacement_fill(new, bytes, PAT_ANCHOR_BYTES) || !replacement_commit(new))
        return NOT_REPLACED;
    return replacement_sync(new) ? PUT : NOT_SYNCED;
}

static bool put_journal(const struct outgoing *out, const uint8_t *bytes) {
    struct replacement new;
    bool done = replacement_open_like(&new, out->journal->path, &out->card->status) &&
                replacement_fill(&new, bytes, PAT_JOURNAL_BYTES(anchor_depth(out->anchor))) &&
                replacement_commit(&new) && replacement_sync(&new);
    replacement_close(&new);
    return done;
}

// A write that failed before its T could stand.
static int lost(const struct request *request, const struct outgoing *out, const char *what,
                const char *path) {
    return system_failure(
        request, "cannot replace the %s %s; the block is not written%s", what, path,
        out->journal->pending ? ": H is raised, the last write is recovered, and nothing else is "
                                "changed"
                              : ", and the card is as it was: H alone is raised");
}

// One that failed after it.
static int cut_short(const struct request *request, const struct outgoing *out, const char *helps) {
    return system_failure(request,
                          "the anchor file %s is replaced, but the card image %s could not be "
                          "written whole: %s",
                          out->anchor->path, out->card->path, helps);
}

static int not_replaced(const struct request *request, const struct outgoing *out) {
    return system_failure(request, "cannot replace the anchor file %s; %s", out->anchor->path,
                          left(out));
}

// The raised anchor goes out before any tag that has its nonces can be seen, the journal before the
// T that makes it good, and T before the ranges.
static int put_steps(const struct request *request, const struct outgoing *out,
                     const struct steps *steps, struct replacement new[2]) {
    const char *anchor = out->anchor->path;
    enum put raised = put_anchor(&new[0], anchor, steps->raised);
    if (raised == NOT_REPLACED)
        return not_replaced(request, out);
    if (raised == NOT_SYNCED)
        return lost(request, out, "anchor file", anchor);
    if (!put_journal(out, steps->journal))
        return lost(request, out, "journal file", out->journal->path);
    enum put last = put_anchor(&new[1], anchor, out->anchor->bytes);
    if (last == NOT_REPLACED)
        return lost(request, out, "anchor file", anchor);
    if (last == NOT_SYNCED ||
        !card_put_journal(out->card, steps->journal, anchor_depth(out->anchor)))
        return cut_short(request, out, "'roundcard recover' puts the rest in place");
    return 0;
}

// Says what stands, where a signal that was held back may end the tool before its report.
static int release(const struct request *request, const struct outgoing *out, int status,
                   const sigset_t *before) {
    if (status == 0 && signal_waits())
        notice(request, "%s, and a signal came meanwhile", out->done);
    release_signals(before);
    return status;
}

int store_write(const struct request *request, const struct outgoing *out,
                const struct steps *steps) {
    struct replacement new[2] = {{.file = -1, .directory = -1}, {.file = -1, .directory = -1}};
    sigset_t before;
    hold_signals(&before);
    int status = can_be_replaced(out->journal->path)
                     ? begin(request, out, end_of(steps->journal, anchor_depth(out->anchor)))
                     : system_failure(request,
                                      "cannot make a journal file beside the card image %s; "
                                      "nothing is changed",
                                      out->card->path);
    if (status == 0)
        status = put_steps(request, out, steps, new);
    replacement_close(&new[1]);
    replacement_close(&new[0]);
    return release(request, out, status, &before);
}

int store_wipe(const struct request *request, const struct outgoing *out) {
    struct replacement new = {.file = -1, .directory = -1};
    sigset_t before;
    hold_signals(&before);
    int status = begin(request, out, out->card->length);
    enum put last = status == 0 ? put_anchor(&new, out->anchor->path, out->anchor->bytes) : PUT;
    if (last == NOT_REPLACED)
        status = not_replaced(request, out);
    else if (status == 0 && (last == NOT_SYNCED || !card_put_whole(out->card)))
        status = cut_short(request, out, "wipe it again");
    else if (status == 0)
        journal_remove(request, out->journal->path);
    replacement_close(&new);
    return release(request, out, status, &before);
}

int store_recovery(const struct request *request, const struct outgoing *out) {
    sigset_t before;
    hold_signals(&before);
    int status = begin(request, out, out->card->length);
    return release(request, out, status, &before);
}
