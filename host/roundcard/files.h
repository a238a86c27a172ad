// Whole files: reading them, and putting new ones in their place.
#ifndef FILES_H
#define FILES_H

#include <stdbool.h>
#include <stddef.h>
#include <stdint.h>
#include <sys/stat.h>

// Opens a regular file with these flags of open. Gives -1 with errno, which is 0 for another kind
// of file.
int open_regular(const char *path, int flags, struct stat *status);

// Reads up to that many bytes, fewer only at the file's end. False with errno.
bool read_up_to(int file, uint8_t *bytes, size_t limit, size_t *length);

// The same from what may be a pipe: with ETIMEDOUT where nothing comes for that many seconds.
bool read_in_time(int file, uint8_t *bytes, size_t limit, size_t *length, uint64_t seconds);

// Milliseconds of a clock that nobody sets.
uint64_t clock_now(void);

// flock that gives up with ETIMEDOUT when the clock is at the end.
bool lock_until(int file, int operation, uint64_t end);

// Writes all of the bytes, at the file's position or at a place of it. False with errno.
bool write_all(int file, const uint8_t *bytes, size_t length);
bool write_at(int file, const uint8_t *bytes, size_t length, off_t place);

// Makes names in the directory of that file stand. False with errno.
bool sync_directory_of(const char *path);

// Whether a new file can be made beside that one to take its place, as far as can be seen
// beforehand. False with errno.
bool can_be_replaced(const char *path);

bool same_file(const struct stat *one, const struct stat *other);

// Whether the two names are of one file, which need not be there yet.
bool same_place(const char *one, const char *other);

// A file that is made new, or that takes another's place whole. Each step gives false with errno.
struct replacement {
    char *path;    // the file; where it is there already, with links resolved
    char *written; // where the bytes go first: beside it, or itself where nothing is in its place
    int file;
    int directory;
};

// With over, what is there already is to be replaced, and its owner kept; without, it is an error.
// The new file is locked until it is closed, so that nobody takes it for finished before.
bool replacement_open(struct replacement *new, const char *path, mode_t mode, bool over);

// For a file that needs no lock, with what is there already or NULL: its owner and mode are kept.
bool replacement_open_unlocked(struct replacement *new, const char *path, const struct stat *old);

// What the new file of that name is called until it takes its place, in memory that the caller
// frees.
char *name_of_replacement(const char *path);

// For a file that is made only under the lock of another, new or in the place of one that is there:
// with that status's owner, where the system lets it, and its mode without what makes a program.
bool replacement_open_like(struct replacement *new, const char *path, const struct stat *like);

// Puts the bytes out, so that they stand when this returns.
bool replacement_fill(struct replacement *new, const uint8_t *bytes, size_t length);

// Takes the place. Where this fails the old file is as it was.
bool replacement_commit(struct replacement *new);

// Makes the new name stand.
bool replacement_sync(const struct replacement *new);

// Removes what was made and not committed.
void replacement_close(struct replacement *new);

#endif
