// Buffers lent to a call, each in memory of its own that ends where the buffer ends. A struct of
// zeros is a buffer that the call does not have.
#ifndef LENT_H
#define LENT_H

#include <stdbool.h>
#include <stddef.h>
#include <stdint.h>

struct lent {
    uint8_t *bytes; // what the call gets
    size_t length;
    uint8_t *before; // a copy of what it held
    uint8_t *memory; // its pages, or the same as bytes
    size_t size;     // of its pages, 0 where there are none
};

enum access { READ_ONLY, READ_WRITE };

// Takes memory for a copy of the bytes. On pages a touch behind the end, or a change to a buffer
// that is only to be read, ends the test at once; with PAT_TEST_EXACT in the environment it is a
// block of the heap, for a tool that watches those.
void lend(struct lent *lent, const uint8_t *bytes, size_t length, enum access access);

// Whether every byte is as it was lent, and whether those from a place on are.
bool unchanged(const struct lent *lent);
bool unchanged_from(const struct lent *lent, size_t start);

// Gives the memory back; false if a byte before the buffer was changed.
bool take_back(struct lent *lent);

// Makes a forbidden touch end the test with a word on what it means.
void watch_fences(void);

#endif
