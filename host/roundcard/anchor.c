#include "anchor.h"
#include "files.h"
#include "report.h"

#include <errno.h>
#include <fcntl.h>
#include <inttypes.h>
#include <stdio.h>
#include <string.h>
#include <sys/file.h>
#include <unistd.h>

uint64_t anchor_depth(const struct anchor *anchor) {
    return pat_get_number(anchor->bytes + PAT_ANCHOR_DEPTH);
}

uint64_t anchor_root(const struct anchor *anchor) {
    return pat_get_number(anchor->bytes + PAT_ANCHOR_ROOT);
}

uint64_t anchor_reserved(const struct anchor *anchor) {
    return pat_get_number(anchor->bytes + PAT_ANCHOR_RESERVED);
}

void tell_lost_attempts(char *text, size_t size, uint64_t count) {
    if (count < 2)
        snprintf(text, size, "%s", count == 0 ? "" : "an attempt after the last change was lost");
    else
        snprintf(text, size, "%" PRIu64 " attempts after the last change were lost", count);
}

void warn_if_open(const struct request *request, const char *path, const struct stat *status) {
    if (S_ISREG(status->st_mode) && (status->st_mode & (S_IRGRP | S_IROTH)) != 0)
        notice(request, "warning: %s has a key and can be read by others: chmod 600 it", path);
}

// Milliseconds before a command says that it waits.
enum { QUIET = 1000 };

static bool wait_for_lock(const struct request *request, const char *path, int file, int operation,
                          uint64_t start) {
    uint64_t quiet = start + QUIET;
    uint64_t end = request->wait < UINT64_MAX / 2000 ? start + 1000 * request->wait : UINT64_MAX;
    if (lock_until(file, operation, end < quiet ? end : quiet))
        return true;
    if (errno != ETIMEDOUT || end <= quiet)
        return false;
    notice(request, "waiting for the lock on the anchor file %s, which another process has", path);
    return lock_until(file, operation, end);
}

// What has the name once the lock is there: another process may have replaced the file meanwhile.
int anchor_lock(const struct request *request, const char *path, enum lock lock,
                struct stat *status) {
    uint64_t start = clock_now();
    for (;;) {
        struct stat now;
        int file = open_regular(path, lock == SHARED ? O_RDONLY : O_RDWR, status);
        if (file < 0)
            return -1;
        int operation = lock == SHARED ? LOCK_SH : LOCK_EX;
        bool locked = wait_for_lock(request, path, file, operation, start) && stat(path, &now) == 0;
        if (locked && same_file(status, &now))
            return file;
        int reason = errno;
        close(file);
        errno = reason;
        if (!locked)
            return -1;
    }
}

int anchor_lock_failure(const struct request *request, const char *path) {
    if (errno != ETIMEDOUT)
        return system_failure(request, "cannot open the anchor file %s", path);
    return failure(request, STATUS_FILE,
                   "another process has the lock on the anchor file %s, and still had it after "
                   "%" PRIu64 " seconds",
                   path, request->wait);
}

int anchor_open_again(const struct request *request, struct anchor *anchor, enum lock lock) {
    *anchor = (struct anchor){.path = request->words[0]};
    anchor->file = anchor_lock(request, anchor->path, lock, &anchor->status);
    if (anchor->file < 0)
        return anchor_lock_failure(request, anchor->path);
    if (!read_up_to(anchor->file, anchor->bytes, sizeof anchor->bytes, &anchor->length)) {
        int status = system_failure(request, "cannot read the anchor file %s", anchor->path);
        anchor_close(anchor);
        return status;
    }
    return 0;
}

int anchor_open(const struct request *request, struct anchor *anchor, enum lock lock) {
    int status = anchor_open_again(request, anchor, lock);
    if (status == 0 && anchor->length == PAT_ANCHOR_BYTES)
        warn_if_open(request, anchor->path, &anchor->status);
    return status;
}

void anchor_close(struct anchor *anchor) {
    explicit_bzero(anchor->bytes, sizeof anchor->bytes);
    close(anchor->file);
}
