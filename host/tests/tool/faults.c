// Preloaded into the tool: lists its calls that change files, and cuts it off or makes a call fail
// at a chosen one of them.
//
// FAULT_LOG names the file for the list. FAULT is "CALL:COUNT:ACTION": at that call of the name,
// counted from 1, ACTION "cut" ends the process before it does anything, "signal" with a number
// behind it sends that signal and goes on, and a number is the errno that the call fails with. The
// CALL "any" counts all that the list has but the wiping of memory. A pwrite or a write can also be
// "torn", which cuts the process off behind that many of its bytes, or "short", which writes no
// more and goes on.
#include <errno.h>
#include <fcntl.h>
#include <signal.h>
#include <stdarg.h>
#include <stdint.h>
#include <stdio.h>
#include <stdlib.h>
#include <string.h>
#include <sys/syscall.h>
#include <sys/types.h>
#include <unistd.h>

static void note(const char *format, ...) {
    const char *path = getenv("FAULT_LOG");
    if (path == NULL)
        return;
    int file = open(path, O_WRONLY | O_APPEND | O_CREAT, 0666);
    va_list values;
    va_start(values, format);
    vdprintf(file, format, values);
    va_end(values);
    close(file);
}

// What a torn or short call writes at most.
static size_t most = SIZE_MAX;
static int torn;

// Whether this call, the count-th of the name that FAULT has, is the one that FAULT means, and what
// is to be done then, behind its colon.
static const char *action_of(const char *fault, int count) {
    char *action;
    return count == strtol(strchr(fault, ':') + 1, &action, 10) ? action + 1 : NULL;
}

// Whether FAULT is of calls of that name. The list has no locks, owners and random bytes.
static int is_of(const char *fault, const char *name) {
    size_t length = strlen(name);
    if (strncmp(fault, "any:", 4) == 0)
        return strcmp(name, "flock") != 0 && strcmp(name, "fchown") != 0 &&
               strcmp(name, "getrandom") != 0;
    return strncmp(fault, name, length) == 0 && fault[length] == ':';
}

// Whether this call is to fail; errno is then set. A cut does not return.
static int fails(const char *name) {
    static int count;
    const char *fault = getenv("FAULT"), *action;
    if (fault == NULL || !is_of(fault, name) || (action = action_of(fault, ++count)) == NULL)
        return 0;
    if (strcmp(action, "cut") == 0)
        _exit(99);
    if (strncmp(action, "signal", 6) == 0)
        return kill(getpid(), atoi(action + 6));
    torn = strncmp(action, "torn", 4) == 0;
    if (torn || strncmp(action, "short", 5) == 0) {
        most = (size_t)atoi(action + (torn ? 4 : 5));
        return 0;
    }
    errno = atoi(action);
    return 1;
}

static const char *last_part(const char *path) {
    const char *slash = strrchr(path, '/');
    return slash == NULL ? path : slash + 1;
}

// The last part of the name of an open file.
static const char *name_of(int file) {
    static char path[4096];
    char link[64];
    snprintf(link, sizeof link, "/proc/self/fd/%d", file);
    ssize_t length = readlink(link, path, sizeof path - 1);
    path[length < 0 ? 0 : length] = '\0';
    return last_part(path);
}

int rename(const char *from, const char *to);
void explicit_bzero(void *bytes, size_t length);
int fsync(int file);
ssize_t getrandom(void *bytes, size_t length, unsigned flags);
int flock(int file, int operation);

int rename(const char *from, const char *to) {
    if (fails("rename"))
        return -1;
    note("rename %s %s\n", last_part(from), last_part(to));
    return (int)syscall(SYS_rename, from, to);
}

int fsync(int file) {
    if (fails("fsync"))
        return -1;
    note("fsync %s\n", name_of(file));
    return (int)syscall(SYS_fsync, file);
}

ssize_t pwrite(int file, const void *bytes, size_t length, off_t place) {
    if (fails("pwrite"))
        return -1;
    note("pwrite %s %lld %zu\n", name_of(file), (long long)place, length);
    ssize_t count = syscall(SYS_pwrite64, file, bytes, length < most ? length : most, place);
    if (torn)
        _exit(99);
    most = SIZE_MAX;
    return count;
}

ssize_t write(int file, const void *bytes, size_t length) {
    if (file <= 2)
        return syscall(SYS_write, file, bytes, length);
    if (fails("write"))
        return -1;
    note("write %s %zu\n", name_of(file), length);
    ssize_t count = syscall(SYS_write, file, bytes, length < most ? length : most);
    if (torn)
        _exit(99);
    most = SIZE_MAX;
    return count;
}

// Of a file that is there alone: what lies beside another is removed in vain as a rule.
int unlink(const char *path) {
    if (access(path, F_OK) != 0)
        return (int)syscall(SYS_unlink, path);
    if (fails("unlink"))
        return -1;
    note("unlink %s\n", last_part(path));
    return (int)syscall(SYS_unlink, path);
}

ssize_t getrandom(void *bytes, size_t length, unsigned flags) {
    return fails("getrandom") ? -1 : syscall(SYS_getrandom, bytes, length, flags);
}

int fchown(int file, uid_t owner, gid_t group) {
    return fails("fchown") ? -1 : (int)syscall(SYS_fchown, file, owner, group);
}

int flock(int file, int operation) {
    return fails("flock") ? -1 : (int)syscall(SYS_flock, file, operation);
}

void explicit_bzero(void *bytes, size_t length) {
    volatile char *byte = bytes;
    for (size_t k = 0; k < length; k++)
        byte[k] = 0;
    note("wipe %zu\n", length);
}
