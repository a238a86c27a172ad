#include "files.h"

#include <errno.h>
#include <fcntl.h>
#include <limits.h>
#include <poll.h>
#include <stdio.h>
#include <stdlib.h>
#include <string.h>
#include <sys/file.h>
#include <time.h>
#include <unistd.h>

// Behind the name of a file while its replacement is being written: one that is under a lock, and
// one that others may be replacing too.
static const char beside[] = ".roundcard-new";
static const char beside_unlocked[] = ".roundcard-XXXXXX";

bool same_file(const struct stat *one, const struct stat *other) {
    return one->st_dev == other->st_dev && one->st_ino == other->st_ino;
}

static void close_keeping_errno(int file) {
    int kept = errno;
    close(file);
    errno = kept;
}

int open_regular(const char *path, int flags, struct stat *status) {
    // Without O_NONBLOCK the open of a pipe would wait for its other end.
    int file = open(path, flags | O_NONBLOCK | O_CLOEXEC);
    if (file < 0)
        return -1;
    if (fstat(file, status) == 0) {
        if (S_ISREG(status->st_mode))
            return file;
        errno = S_ISDIR(status->st_mode) ? EISDIR : 0;
    }
    close_keeping_errno(file);
    return -1;
}

bool read_up_to(int file, uint8_t *bytes, size_t limit, size_t *length) {
    for (*length = 0; *length < limit;) {
        ssize_t count = read(file, bytes + *length, limit - *length);
        if (count == 0)
            break;
        if (count > 0)
            *length += (size_t)count;
        else if (errno != EINTR)
            return false;
    }
    return true;
}

bool read_in_time(int file, uint8_t *bytes, size_t limit, size_t *length, uint64_t seconds) {
    struct pollfd awaited = {.fd = file, .events = POLLIN};
    int patience = seconds < INT_MAX / 1000 ? (int)seconds * 1000 : -1;
    for (*length = 0; *length < limit;) {
        int ready = poll(&awaited, 1, patience);
        if (ready == 0) {
            errno = ETIMEDOUT;
            return false;
        }
        ssize_t count = ready < 0 ? -1 : read(file, bytes + *length, limit - *length);
        if (count == 0)
            break;
        if (count > 0)
            *length += (size_t)count;
        else if (errno != EINTR && errno != EAGAIN)
            return false;
    }
    return true;
}

uint64_t clock_now(void) {
    struct timespec now;
    clock_gettime(CLOCK_MONOTONIC, &now);
    return (uint64_t)now.tv_sec * 1000 + (uint64_t)now.tv_nsec / 1000000;
}

// A blocking flock could only be ended by a signal, and an alarm may be somebody else's.
bool lock_until(int file, int operation, uint64_t end) {
    const struct timespec pause = {.tv_nsec = 5000000};
    while (flock(file, operation | LOCK_NB) != 0) {
        if (errno != EWOULDBLOCK && errno != EINTR)
            return false;
        if (clock_now() >= end) {
            errno = ETIMEDOUT;
            return false;
        }
        nanosleep(&pause, NULL);
    }
    return true;
}

bool write_all(int file, const uint8_t *bytes, size_t length) {
    for (size_t done = 0; done < length;) {
        ssize_t count = write(file, bytes + done, length - done);
        if (count >= 0)
            done += (size_t)count;
        else if (errno != EINTR)
            return false;
    }
    return true;
}

bool write_at(int file, const uint8_t *bytes, size_t length, off_t place) {
    for (size_t done = 0; done < length;) {
        ssize_t count = pwrite(file, bytes + done, length - done, place + (off_t)done);
        if (count >= 0)
            done += (size_t)count;
        else if (errno != EINTR)
            return false;
    }
    return true;
}

// The name of the directory that a file is in, in memory that the caller frees.
static char *directory_of(const char *path) {
    const char *slash = strrchr(path, '/');
    return slash == NULL ? strdup(".") : strndup(path, (size_t)(slash - path) + 1);
}

bool same_place(const char *one, const char *other) {
    struct stat first, second;
    bool there = stat(one, &first) == 0;
    if (there != (stat(other, &second) == 0))
        return false;
    if (there)
        return same_file(&first, &second);
    const char *slash = strrchr(one, '/'), *other_slash = strrchr(other, '/');
    if (strcmp(slash == NULL ? one : slash + 1, other_slash == NULL ? other : other_slash + 1) != 0)
        return false;
    char *directory = directory_of(one), *other_directory = directory_of(other);
    bool same = directory != NULL && other_directory != NULL && stat(directory, &first) == 0 &&
                stat(other_directory, &second) == 0 && same_file(&first, &second);
    free(directory);
    free(other_directory);
    return same;
}

static int open_directory_of(const char *path) {
    char *directory = directory_of(path);
    if (directory == NULL)
        return -1;
    int file = open(directory, O_RDONLY | O_DIRECTORY | O_CLOEXEC);
    free(directory);
    return file;
}

static bool sync_directory(int directory) {
    return fsync(directory) == 0 || errno == EINVAL; // some file systems do not offer it
}

bool sync_directory_of(const char *path) {
    char *resolved = realpath(path, NULL);
    int directory = open_directory_of(resolved == NULL ? path : resolved);
    free(resolved);
    if (directory < 0)
        return false;
    bool synced = sync_directory(directory);
    close_keeping_errno(directory);
    return synced;
}

static char *joined(const char *path, const char *suffix) {
    size_t length = strlen(path) + strlen(suffix) + 1;
    char *name = malloc(length);
    if (name != NULL)
        snprintf(name, length, "%s%s", path, suffix);
    return name;
}

char *name_of_replacement(const char *path) {
    return joined(path, beside);
}

bool can_be_replaced(const char *path) {
    struct stat status;
    char *new = name_of_replacement(path), *directory = directory_of(path);
    bool can = new != NULL &&directory != NULL && (lstat(new, &status) == 0 || errno == ENOENT) &&
               faccessat(AT_FDCWD, directory, W_OK | X_OK, AT_EACCESS) == 0;
    free(new);
    free(directory);
    return can;
}

// The name beside the path that the bytes go to first.
static bool name_beside(struct replacement *new, const char *suffix) {
    new->written = joined(new->path, suffix);
    return new->written != NULL;
}

static bool keep_owner(const struct replacement *new, const struct stat *old) {
    struct stat made;
    if (fstat(new->file, &made) != 0)
        return false;
    bool owned = made.st_uid == old->st_uid && made.st_gid == old->st_gid;
    return owned || fchown(new->file, old->st_uid, old->st_gid) == 0;
}

// The replacement of a file that is there.
static bool open_beside(struct replacement *new, const char *path, mode_t mode) {
    struct stat old;
    if (stat(path, &old) != 0 || (new->path = realpath(path, NULL)) == NULL)
        return false;
    if (!S_ISREG(old.st_mode)) {
        errno = S_ISDIR(old.st_mode) ? EISDIR : 0;
        return false;
    }
    if (!name_beside(new, beside) || (unlink(new->written) != 0 && errno != ENOENT))
        return false;
    new->file = open(new->written, O_WRONLY | O_CREAT | O_EXCL | O_CLOEXEC, mode);
    return new->file >= 0 && keep_owner(new, &old);
}

bool replacement_open(struct replacement *new, const char *path, mode_t mode, bool over) {
    *new = (struct replacement){.directory = -1};
    new->file = open(path, O_WRONLY | O_CREAT | O_EXCL | O_CLOEXEC, mode);
    if (new->file >= 0) {
        new->path = strdup(path);
        new->written = strdup(path);
    } else if (errno != EEXIST || !over || !open_beside(new, path, mode)) {
        return false;
    }
    if (new->path == NULL || new->written == NULL)
        return false;
    // Somebody who looks into a new file has the lock for a moment.
    if (!lock_until(new->file, LOCK_EX, clock_now() + 1000))
        return false;
    new->directory = open_directory_of(new->path);
    return new->directory >= 0;
}

bool replacement_open_unlocked(struct replacement *new, const char *path, const struct stat *old) {
    *new = (struct replacement){.file = -1, .directory = -1};
    // What may not be written to is not replaced either.
    if (old != NULL && faccessat(AT_FDCWD, path, W_OK, AT_EACCESS) != 0)
        return false;
    new->path = old == NULL ? strdup(path) : realpath(path, NULL);
    if (new->path == NULL || !name_beside(new, beside_unlocked))
        return false;
    new->file = mkstemp(new->written);
    if (new->file < 0 || (old != NULL && !keep_owner(new, old)))
        return false;
    mode_t mask = umask(0);
    umask(mask);
    if (fchmod(new->file, old == NULL ? 0666 & ~mask : old->st_mode & 07777) != 0)
        return false;
    new->directory = open_directory_of(new->path);
    return new->directory >= 0;
}

bool replacement_open_like(struct replacement *new, const char *path, const struct stat *like) {
    *new = (struct replacement){.file = -1, .directory = -1, .path = strdup(path)};
    if (new->path == NULL || !name_beside(new, beside) ||
        (unlink(new->written) != 0 && errno != ENOENT))
        return false;
    new->file = open(new->written, O_WRONLY | O_CREAT | O_EXCL | O_CLOEXEC, S_IRUSR | S_IWUSR);
    if (new->file < 0)
        return false;
    bool same = keep_owner(new, like); // another group gets no rights from that one's
    if (fchmod(new->file, like->st_mode & (same ? 0666 : 0606)) != 0)
        return false;
    new->directory = open_directory_of(new->path);
    return new->directory >= 0;
}

bool replacement_fill(struct replacement *new, const uint8_t *bytes, size_t length) {
    return write_all(new->file, bytes, length) && fsync(new->file) == 0;
}

bool replacement_commit(struct replacement *new) {
    if (strcmp(new->written, new->path) != 0 && rename(new->written, new->path) != 0)
        return false;
    free(new->written);
    new->written = NULL;
    return true;
}

bool replacement_sync(const struct replacement *new) {
    return sync_directory(new->directory);
}

void replacement_close(struct replacement *new) {
    int kept = errno;
    if (new->file >= 0 && new->written != NULL)
        unlink(new->written);
    if (new->file >= 0)
        close(new->file);
    if (new->directory >= 0)
        close(new->directory);
    free(new->written);
    free(new->path);
    errno = kept;
}
