// The anchor file: read under a lock, and replaced whole.
#ifndef ANCHOR_H
#define ANCHOR_H

#include "pat.h"
#include "request.h"

#include <sys/stat.h>

struct anchor {
    const char *path;
    int file; // holds the lock
    uint8_t bytes[PAT_ANCHOR_BYTES + 1];
    size_t length; // of the bytes read, one more than an anchor's for a file that is longer
    struct stat status;
};

enum lock { SHARED, EXCLUSIVE };

// Opens the file with a lock, for which it waits as the request says, and says so after a second.
// Gives -1 with errno, which is ETIMEDOUT where it waited in vain.
int anchor_lock(const struct request *request, const char *path, enum lock lock,
                struct stat *status);

// Reports that error.
int anchor_lock_failure(const struct request *request, const char *path);

// Waits for the lock and reads the file. Gives 0, or the status of the error it reported.
int anchor_open(const struct request *request, struct anchor *anchor, enum lock lock);

// The same once more in a command: what anchor_open warned of is not said again.
int anchor_open_again(const struct request *request, struct anchor *anchor, enum lock lock);

// Gives the lock back and wipes the key.
void anchor_close(struct anchor *anchor);

// Warns where a file with a key is open to others.
void warn_if_open(const struct request *request, const char *path, const struct stat *status);

uint64_t anchor_depth(const struct anchor *anchor);
uint64_t anchor_root(const struct anchor *anchor);
uint64_t anchor_reserved(const struct anchor *anchor);

// Says how many attempts were lost after the last change: each took one depth of nonces from T up
// to H. Empty where none was.
void tell_lost_attempts(char *text, size_t size, uint64_t count);

#endif
