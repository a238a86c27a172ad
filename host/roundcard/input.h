// Files that a command takes bytes from: a key, a new block.
#ifndef INPUT_H
#define INPUT_H

#include "request.h"

#include <sys/stat.h>

// Bytes to be taken: up to the limit, with what is known of the file.
struct input {
    uint8_t *bytes;
    size_t limit, length;
    struct stat status;
};

// Reads from the file, or from standard input where the path is NULL or "-". A pipe with a name is
// read as long as bytes come, and given up after a while without any. Gives 0, or the status of the
// error it reported.
int input_take(const struct request *request, const char *what, const char *path,
               struct input *input);

#endif
