// The tree of document 01 in plain C over any CMAC: the benchmark's measure for the proved calls,
// with the same arguments and answers.
#ifndef TREE_H
#define TREE_H

#include <stddef.h>
#include <stdint.h>

// A CMAC with its context. set_key is called once in a call of the tree, tag then for each tag
// under that key.
struct tree_cmac {
    void *context;
    void (*set_key)(void *context, const uint8_t *key);
    void (*tag)(void *context, const uint8_t *message, size_t length, uint8_t *tag);
};

uint64_t tree_format(const struct tree_cmac *cmac, uint8_t *anchor, size_t anchor_len,
                     uint8_t *card, size_t card_len);

uint64_t tree_read(const struct tree_cmac *cmac, const uint8_t *anchor, size_t anchor_len,
                   const uint8_t *card, size_t card_len, uint64_t index, uint8_t *buffer,
                   size_t buffer_len);

uint64_t tree_write(const struct tree_cmac *cmac, uint8_t *anchor, size_t anchor_len, uint8_t *card,
                    size_t card_len, uint64_t index, const uint8_t *block, size_t block_len,
                    uint8_t *ranges, size_t ranges_len);

uint64_t tree_check(const struct tree_cmac *cmac, const uint8_t *anchor, size_t anchor_len,
                    const uint8_t *card, size_t card_len);

uint64_t tree_wipe(const struct tree_cmac *cmac, uint8_t *anchor, size_t anchor_len, uint8_t *card,
                   size_t card_len);

#endif
