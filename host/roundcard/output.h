// Files that a command puts bytes into for its user: a block, a picture.
#ifndef OUTPUT_H
#define OUTPUT_H

#include "anchor.h"
#include "card.h"

// Puts the bytes into a file that is neither the anchor nor the card. A regular file is replaced
// whole, or left as it is; a pipe or a device is written to without waiting. Gives 0, or the status
// of the error it reported.
int output_put(const struct request *request, const char *path, const struct anchor *anchor,
               const struct card *card, const uint8_t *bytes, size_t length);

#endif
