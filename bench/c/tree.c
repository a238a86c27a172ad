#include "tree.h"

#include <stdbool.h>
#include <string.h>

enum {
    KEY_BYTES = 16,
    NONCE_BYTES = 8,
    BLOCK_BYTES = 64,
    TAG_BYTES = 16,
    ANCHOR_BYTES = 40,
    INNER_BYTES = NONCE_BYTES + TAG_BYTES,
    LEAF_BYTES = BLOCK_BYTES + TAG_BYTES,
    MAX_DEPTH = 16,
};

// The anchor's numbers, and the root's label as a child's message has it.
struct anchor {
    uint64_t depth;
    uint64_t root;
    uint64_t reserved;
    const uint8_t *root_label;
};

// A node's place on the card: its label, of that size, and after it its tag.
struct place {
    size_t offset;
    size_t size;
};

static uint64_t get_number(const uint8_t *bytes) {
    uint64_t number = 0;
    for (size_t k = 0; k < 8; k++)
        number = number << 8 | bytes[k];
    return number;
}

static void put_number(uint8_t *bytes, size_t count, uint64_t number) {
    for (size_t k = count; k-- > 0; number >>= 8)
        bytes[k] = (uint8_t)number;
}

static struct anchor parse(const uint8_t *anchor) {
    const uint8_t *numbers = anchor + KEY_BYTES;
    return (struct anchor){get_number(numbers), get_number(numbers + 8), get_number(numbers + 16),
                           numbers + 8};
}

static size_t leaves(uint64_t depth) {
    return (size_t)1 << depth;
}

static struct place place_of(uint64_t depth, size_t node) {
    size_t first = leaves(depth);
    if (node < first)
        return (struct place){INNER_BYTES * (node - 2), NONCE_BYTES};
    return (struct place){INNER_BYTES * (first - 2) + LEAF_BYTES * (node - first), BLOCK_BYTES};
}

// The label of a node's parent, the root's being outside the card.
static const uint8_t *parent_label(const struct anchor *a, const uint8_t *card, size_t node) {
    return node < 4 ? a->root_label : card + place_of(a->depth, node / 2).offset;
}

// The tag of a node with a label of that size.
static void make_tag(const struct tree_cmac *cmac, const uint8_t *label, size_t size,
                     const uint8_t *parent, size_t node, uint8_t *tag) {
    uint8_t message[BLOCK_BYTES + NONCE_BYTES + 1];
    memcpy(message, label, size);
    memcpy(message + size, parent, NONCE_BYTES);
    message[size + NONCE_BYTES] = node % 2;
    cmac->tag(cmac->context, message, size + NONCE_BYTES + 1, tag);
}

static bool right(const struct tree_cmac *cmac, const struct anchor *a, const uint8_t *card,
                  size_t node) {
    struct place place = place_of(a->depth, node);
    const uint8_t *label = card + place.offset;
    uint8_t tag[TAG_BYTES];
    make_tag(cmac, label, place.size, parent_label(a, card, node), node, tag);
    return memcmp(tag, label + place.size, TAG_BYTES) == 0;
}

static uint64_t wrong(size_t node) {
    return 8 + 256 * (uint64_t)node;
}

// Limits 1 to 3, which every call after format shares.
static uint64_t common_limits(const struct anchor *a, size_t card_len) {
    if (a->depth == 0 || a->depth > MAX_DEPTH)
        return 1;
    if (a->root % a->depth != 0 || a->reserved % a->depth != 0 || a->reserved < a->root)
        return 2;
    if (card_len != 104 * leaves(a->depth) - 48)
        return 3;
    return 0;
}

// Puts a nonce into the anchor, as root nonce and as reserved nonce.
static void put_nonces(uint8_t *anchor, uint64_t nonce) {
    put_number(anchor + KEY_BYTES + 8, NONCE_BYTES, nonce);
    put_number(anchor + KEY_BYTES + 16, NONCE_BYTES, nonce);
}

// An empty card whose nonces are all the anchor's new one, which goes there too.
static void put_empty(const struct tree_cmac *cmac, uint64_t depth, uint64_t root, uint8_t *anchor,
                      uint8_t *card, size_t card_len) {
    uint8_t *nonce = anchor + KEY_BYTES + 8;
    cmac->set_key(cmac->context, anchor);
    put_nonces(anchor, root);
    memset(card, 0, card_len);
    for (size_t node = 2; node < 2 * leaves(depth); node++) {
        struct place place = place_of(depth, node);
        uint8_t *label = card + place.offset;
        if (node < leaves(depth))
            memcpy(label, nonce, NONCE_BYTES);
        make_tag(cmac, label, place.size, nonce, node, label + place.size);
    }
}

uint64_t tree_format(const struct tree_cmac *cmac, uint8_t *anchor, size_t anchor_len,
                     uint8_t *card, size_t card_len) {
    if (anchor_len != ANCHOR_BYTES)
        return 5;
    struct anchor a = parse(anchor);
    a.root = a.reserved = 0;
    uint64_t refusal = common_limits(&a, card_len);
    if (refusal != 0)
        return refusal;
    put_empty(cmac, a.depth, 0, anchor, card, card_len);
    return 0;
}

uint64_t tree_wipe(const struct tree_cmac *cmac, uint8_t *anchor, size_t anchor_len, uint8_t *card,
                   size_t card_len) {
    if (anchor_len != ANCHOR_BYTES)
        return 5;
    struct anchor a = parse(anchor);
    uint64_t refusal = common_limits(&a, card_len);
    if (refusal != 0)
        return refusal;
    if (a.reserved > UINT64_MAX - a.depth)
        return 7;
    put_empty(cmac, a.depth, a.reserved + a.depth, anchor, card, card_len);
    return 0;
}

uint64_t tree_read(const struct tree_cmac *cmac, const uint8_t *anchor, size_t anchor_len,
                   const uint8_t *card, size_t card_len, uint64_t index, uint8_t *buffer,
                   size_t buffer_len) {
    if (anchor_len != ANCHOR_BYTES)
        return 5;
    struct anchor a = parse(anchor);
    uint64_t refusal = common_limits(&a, card_len);
    if (refusal != 0)
        return refusal;
    if (index >= leaves(a.depth))
        return 4;
    if (buffer_len != BLOCK_BYTES)
        return 5;
    cmac->set_key(cmac->context, anchor);
    size_t leaf = leaves(a.depth) + (size_t)index;
    for (uint64_t above = a.depth; above-- > 0;)
        if (!right(cmac, &a, card, leaf >> above))
            return wrong(leaf >> above);
    memcpy(buffer, card + place_of(a.depth, leaf).offset, BLOCK_BYTES);
    return 0;
}

// The first wrong node that a write to the leaf meets, or 0: each of the path and then its sibling,
// but not the leaf itself.
static size_t first_wrong(const struct tree_cmac *cmac, const struct anchor *a, const uint8_t *card,
                          size_t leaf) {
    for (uint64_t above = a->depth; above-- > 0;) {
        size_t node = leaf >> above;
        if (node != leaf && !right(cmac, a, card, node))
            return node;
        if (!right(cmac, a, card, node ^ 1))
            return node ^ 1;
    }
    return 0;
}

// Gives a path's node the label, and both it and its sibling tags under the parent's new label;
// writes both ranges.
static void renew(const struct tree_cmac *cmac, uint64_t depth, uint8_t *card, size_t node,
                  const uint8_t *new_label, const uint8_t *parent, uint8_t *ranges) {
    struct place own = place_of(depth, node);
    struct place other = place_of(depth, node ^ 1);
    uint8_t *label = card + own.offset;
    uint8_t *sibling = card + other.offset;
    memcpy(label, new_label, own.size);
    make_tag(cmac, label, own.size, parent, node, label + own.size);
    make_tag(cmac, sibling, other.size, parent, node ^ 1, sibling + other.size);
    uint8_t *own_range = ranges + 8 * (node % 2);
    uint8_t *other_range = ranges + 8 * (1 - node % 2);
    put_number(own_range, 4, own.offset);
    put_number(own_range + 4, 4, own.size + TAG_BYTES);
    put_number(other_range, 4, other.offset + other.size);
    put_number(other_range + 4, 4, TAG_BYTES);
}

// An accepted write's work.
static void put_block(const struct tree_cmac *cmac, const struct anchor *a, uint8_t *card,
                      size_t leaf, const uint8_t *block, uint8_t *ranges) {
    uint8_t parent[NONCE_BYTES], nonce[NONCE_BYTES];
    put_number(parent, NONCE_BYTES, a->reserved + a->depth);
    for (uint64_t above = a->depth; above-- > 0; ranges += 16) {
        put_number(nonce, NONCE_BYTES, a->reserved + above);
        renew(cmac, a->depth, card, leaf >> above, above == 0 ? block : nonce, parent, ranges);
        memcpy(parent, nonce, NONCE_BYTES);
    }
}

uint64_t tree_write(const struct tree_cmac *cmac, uint8_t *anchor, size_t anchor_len, uint8_t *card,
                    size_t card_len, uint64_t index, const uint8_t *block, size_t block_len,
                    uint8_t *ranges, size_t ranges_len) {
    if (anchor_len != ANCHOR_BYTES)
        return 5;
    struct anchor a = parse(anchor);
    uint64_t refusal = common_limits(&a, card_len);
    if (refusal != 0)
        return refusal;
    if (index >= leaves(a.depth))
        return 4;
    if (block_len != BLOCK_BYTES)
        return 5;
    if (ranges_len < 16 * a.depth)
        return 6;
    if (a.reserved > UINT64_MAX - a.depth)
        return 7;
    cmac->set_key(cmac->context, anchor);
    size_t leaf = leaves(a.depth) + (size_t)index;
    size_t node = first_wrong(cmac, &a, card, leaf);
    if (node != 0)
        return wrong(node);
    put_block(cmac, &a, card, leaf, block, ranges);
    put_nonces(anchor, a.reserved + a.depth);
    return 0;
}

uint64_t tree_check(const struct tree_cmac *cmac, const uint8_t *anchor, size_t anchor_len,
                    const uint8_t *card, size_t card_len) {
    if (anchor_len != ANCHOR_BYTES)
        return 5;
    struct anchor a = parse(anchor);
    uint64_t refusal = common_limits(&a, card_len);
    if (refusal != 0)
        return refusal;
    cmac->set_key(cmac->context, anchor);
    for (size_t node = 2; node < 2 * leaves(a.depth); node++)
        if (!right(cmac, &a, card, node))
            return wrong(node);
    return 0;
}
