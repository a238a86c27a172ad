// The header's own constants and functions.
#include "calls.h"
#include "tests.h"

#include <stdio.h>
#include <string.h>

// Depths that no card has.
static const uint64_t no_depths[] = {
    0, 17, 64, 65, 257, (uint64_t)1 << 32, ((uint64_t)1 << 32) + 3, UINT64_MAX};
enum { NO_DEPTHS = sizeof no_depths / sizeof *no_depths };

static void test_version(void) {
    char text[32];
    snprintf(text, sizeof text, "%d.%d.%d", PAT_VERSION_MAJOR, PAT_VERSION_MINOR,
             PAT_VERSION_PATCH);
    expect(strcmp(text, PAT_VERSION) == 0, "one version: %s, and not " PAT_VERSION, text);
}

static void test_numbers(void) {
    static const uint8_t expected[] = {0x01, 0x23, 0x45, 0x67, 0x89, 0xab, 0xcd, 0xef};
    uint8_t bytes[8];
    pat_put_number(bytes, 0x0123456789abcdef);
    expect(memcmp(bytes, expected, 8) == 0, "pat_put_number is big-endian");
    expect(pat_get_number(expected) == 0x0123456789abcdef, "pat_get_number is big-endian");
    static const uint8_t ranges[] = {0,    0,    0,    8,    0,    0,    0,    16,
                                     0x89, 0xab, 0xcd, 0xef, 0xfe, 0xdc, 0xba, 0x98};
    expect(pat_range_start(ranges, 0) == 8 && pat_range_length(ranges, 0) == 16, "the first range");
    expect(pat_range_start(ranges, 1) == 0x89abcdef, "the start of the second range");
    expect(pat_range_length(ranges, 1) == 0xfedcba98, "the length of the second range");
}

// The macro as the length of arrays, where only a constant expression will do.
static void test_card_bytes(void) {
    static uint8_t least[PAT_CARD_BYTES(1)], most[PAT_CARD_BYTES(PAT_MAX_DEPTH)];
    expect(sizeof least == 160 && sizeof most == 6815696, "the shortest and the longest card");
    expect(PAT_CARD_BYTES(0) == 0 && PAT_CARD_BYTES(-1) == 0 && PAT_CARD_BYTES(17) == 0 &&
               PAT_CARD_BYTES(UINT64_MAX) == 0,
           "the macro gives 0 for no depth");
    size_t leaves = 1;
    for (unsigned depth = 1; depth <= 16; depth++) {
        leaves *= 2;
        expect(pat_card_bytes(depth) == 104 * leaves - 48 &&
                   PAT_CARD_BYTES(depth) == pat_card_bytes(depth),
               "the length of a card of depth %u", depth);
    }
    for (size_t k = 0; k < NO_DEPTHS; k++)
        expect(pat_card_bytes(no_depths[k]) == 0, "no card has a depth of %llu",
               (unsigned long long)no_depths[k]);
}

// The macros where only a constant expression will do, with arguments that need their brackets, and
// for no depth. known.h has the numbers of every depth.
static void test_aes_calls(void) {
    enum { WIPE_CALLS = PAT_AES_WIPE(1 + 2), PLAN_CALLS = PAT_AES_PLAN(2 | 1) };
    static uint8_t reads[PAT_AES_READ(2 | 1)], writes[PAT_AES_WRITE(4 - 1)], all[PAT_AES_CHECK(3)];
    expect(sizeof reads == 10 && sizeof writes == 32 && sizeof all == 53 && WIPE_CALLS == 53,
           "the AES calls as constants");
    expect(PLAN_CALLS == 14, "the AES calls of a plan as a constant");
    expect(PAT_AES_READ(0) == 0 && PAT_AES_READ(-1) == 0 && PAT_AES_READ(17) == 0 &&
               PAT_AES_READ(UINT64_MAX) == 0,
           "no read without a depth");
    expect(PAT_AES_WRITE(0) == 0 && PAT_AES_WRITE(-1) == 0 && PAT_AES_WRITE(17) == 0 &&
               PAT_AES_WRITE(UINT64_MAX) == 0,
           "no write without a depth");
    expect(PAT_AES_CHECK(0) == 0 && PAT_AES_CHECK(-1) == 0 && PAT_AES_CHECK(17) == 0 &&
               PAT_AES_CHECK(UINT64_MAX) == 0,
           "no check without a depth");
    expect(PAT_AES_WIPE(0) == 0 && PAT_AES_WIPE(-1) == 0 && PAT_AES_WIPE(17) == 0 &&
               PAT_AES_WIPE(UINT64_MAX) == 0,
           "no wipe without a depth");
    expect(PAT_AES_PLAN(0) == 0 && PAT_AES_PLAN(-1) == 0 && PAT_AES_PLAN(17) == 0 &&
               PAT_AES_PLAN(UINT64_MAX) == 0,
           "no plan without a depth");
    for (size_t k = 0; k < NO_DEPTHS; k++)
        expect(PAT_AES_READ(no_depths[k]) == 0 && PAT_AES_WRITE(no_depths[k]) == 0 &&
                   PAT_AES_CHECK(no_depths[k]) == 0 && PAT_AES_WIPE(no_depths[k]) == 0 &&
                   PAT_AES_PLAN(no_depths[k]) == 0,
               "no call is accepted at a depth of %llu", (unsigned long long)no_depths[k]);
}

// The lengths of a split write's buffers, where only a constant expression will do, and for no
// depth. known_plans.h has the messages of every depth.
static void test_split_lengths(void) {
    static uint8_t least[PAT_MESSAGES_FILLED(2 - 1)], most[PAT_MESSAGES_FILLED(PAT_MAX_DEPTH)];
    enum { SIX = PAT_MESSAGES(1 | 2) };
    expect(sizeof least == 146 && sizeof most == PAT_MESSAGES_BYTES && PAT_MESSAGES_BYTES == 656,
           "the fewest and the most bytes of messages");
    expect(PAT_PLAN_BYTES == 24 && PAT_TAG_BYTES == 16 && SIX == 6, "plan, tag and messages");
    expect(PAT_PLAN_INDEX == 0 && PAT_PLAN_ROOT == 8 && PAT_PLAN_FILLED == 16,
           "places in the plan");
    expect(PAT_MESSAGES(0) == 0 && PAT_MESSAGES(-1) == 0 && PAT_MESSAGES(17) == 0 &&
               PAT_MESSAGES_FILLED(0) == 0 && PAT_MESSAGES_FILLED(-1) == 0 &&
               PAT_MESSAGES_FILLED(17) == 0,
           "no messages without a depth");
    for (size_t k = 0; k < NO_DEPTHS; k++)
        expect(PAT_MESSAGES(no_depths[k]) == 0 && PAT_MESSAGES_FILLED(no_depths[k]) == 0,
               "no messages at a depth of %llu", (unsigned long long)no_depths[k]);
}

// A journal has T, a range list, the ranges' bytes and a tag.
static void test_journal_lengths(void) {
    static uint8_t least[PAT_JOURNAL_BYTES(2 - 1)], most[PAT_JOURNAL_BYTES(PAT_MAX_DEPTH)];
    expect(sizeof least == 136 && sizeof most == 976 && PAT_MAX_JOURNAL_BYTES == 976,
           "the shortest and the longest journal");
    expect(PAT_JOURNAL_ROOT == 0 && PAT_JOURNAL_RANGES == 8, "places in the journal");
    for (unsigned depth = 1; depth <= PAT_MAX_DEPTH; depth++)
        expect(PAT_JOURNAL_BYTES(depth) ==
                   8 + PAT_RANGE_BYTES(depth) + 40 * (size_t)depth + 56 + PAT_TAG_BYTES,
               "the length of a journal of depth %u", depth);
    expect(PAT_JOURNAL_BYTES(0) == 0 && PAT_JOURNAL_BYTES(-1) == 0 && PAT_JOURNAL_BYTES(17) == 0,
           "no journal without a depth");
    for (size_t k = 0; k < NO_DEPTHS; k++)
        expect(PAT_JOURNAL_BYTES(no_depths[k]) == 0, "no journal has a depth of %llu",
               (unsigned long long)no_depths[k]);
}

static void expect_no_message(uint64_t depth, uint64_t index, unsigned k) {
    struct pat_message m = pat_message(depth, index, k);
    expect(m.node == 0 && m.start == 0 && m.length == 0, "depth %llu, block %llu has no message %u",
           (unsigned long long)depth, (unsigned long long)index, k);
}

static void test_no_messages(void) {
    for (unsigned depth = 1; depth <= PAT_MAX_DEPTH; depth++) {
        uint64_t blocks = (uint64_t)1 << depth;
        const uint64_t absent[] = {blocks,
                                   2 * blocks,
                                   ((uint64_t)1 << 32) + 1,
                                   (uint64_t)1 << 63,
                                   UINT64_MAX - blocks + 1,
                                   UINT64_MAX};
        const unsigned past[] = {2 * depth, 2 * depth + 1, 64, 1u << 31, UINT32_MAX};
        for (unsigned k = 0; k < 2 * depth; k++) {
            expect(pat_message(depth, blocks - 1, k).length != 0, "depth %u has message %u", depth,
                   k);
            for (size_t j = 0; j < sizeof absent / sizeof *absent; j++)
                expect_no_message(depth, absent[j], k);
        }
        for (size_t j = 0; j < sizeof past / sizeof *past; j++)
            expect_no_message(depth, 0, past[j]);
    }
    for (size_t k = 0; k < NO_DEPTHS; k++)
        for (unsigned j = 0; j < 3; j++)
            expect_no_message(no_depths[k], j, j);
}

// Whether two answers have one sentence; the compiler may not know the first beforehand.
static bool same_text(uint64_t one, uint64_t other) {
    const char *volatile text = pat_refusal_text(one);
    return strcmp(text, pat_refusal_text(other)) == 0;
}

static void test_refusal_text(void) {
    static const uint64_t strange[] = {11,          15,          255,          256,       257,
                                       5 + 256 * 7, 9 + 256 * 7, 10 + 256 * 7, UINT64_MAX};
    for (size_t k = 0; k < sizeof strange / sizeof *strange; k++)
        expect(same_text(strange[k], 100), "%llu is no answer", (unsigned long long)strange[k]);
    for (unsigned k = PAT_ACCEPTED; k <= PAT_REFUSED_JOURNAL; k++) {
        expect(strlen(pat_refusal_text(k)) > 10, "a sentence for %u", k);
        expect(!same_text(k, 100), "%u is an answer", k);
        for (unsigned other = 0; other < k; other++)
            expect(!same_text(k, other), "%u and %u have a sentence each", k, other);
    }
    expect(strcmp(pat_refusal_text(PAT_REFUSED_SPENT), "the root nonces are used up") == 0,
           "the sentence for 7");
    expect(same_text(8 + 256 * 6, 8), "8 has its sentence with a node and without");
    const char *lengths = pat_refusal_text(PAT_REFUSED_LENGTH);
    expect(strstr(lengths, "anchor has not 40") != NULL &&
               strstr(lengths, "block not 64") != NULL && strstr(lengths, "plan not 24") != NULL &&
               strstr(lengths, "messages not 656") != NULL && strstr(lengths, "tag not 16") != NULL,
           "the sentence for 5 has every length");
    expect(PAT_REFUSED_NOT_AWAITED == 9, "the number of a tag that is not awaited");
    expect(PAT_REFUSED_JOURNAL == 10, "the number of a journal");
}

// Every node of small cards, against the blocks that have it on their path.
static void test_blocks_under(void) {
    for (unsigned depth = 1; depth <= 6; depth++) {
        uint64_t leaves = (uint64_t)1 << depth;
        for (uint64_t node = 1; node < 2 * leaves; node++) {
            uint64_t first = PAT_NO_BLOCK, last = PAT_NO_BLOCK;
            for (uint64_t block = leaves; block-- > 0;)
                for (uint64_t above = leaves + block; above > 0; above /= 2)
                    if (above == node) {
                        first = block;
                        last = last == PAT_NO_BLOCK ? block : last;
                    }
            expect(pat_first_block(depth, node) == first && pat_last_block(depth, node) == last,
                   "depth %u: the blocks under node %llu", depth, (unsigned long long)node);
        }
    }
    expect(pat_first_block(16, 1) == 0 && pat_last_block(16, 1) == 65535, "all blocks");
    expect(pat_first_block(16, 3) == 32768 && pat_last_block(16, 131071) == 65535, "the last ones");
}

static void expect_no_block(uint64_t depth, uint64_t node) {
    expect(pat_first_block(depth, node) == PAT_NO_BLOCK &&
               pat_last_block(depth, node) == PAT_NO_BLOCK,
           "depth %llu has no node %llu", (unsigned long long)depth, (unsigned long long)node);
}

static void test_no_blocks(void) {
    for (unsigned depth = 1; depth <= PAT_MAX_DEPTH; depth++) {
        expect_no_block(depth, 0);
        expect_no_block(depth, (uint64_t)2 << depth);
        expect_no_block(depth, ((uint64_t)1 << 32) + 2);
        expect_no_block(depth, UINT64_MAX);
    }
    for (size_t k = 0; k < NO_DEPTHS; k++)
        expect_no_block(no_depths[k], 1);
}

static void test_anchor_bytes(void) {
    uint8_t bytes[PAT_ANCHOR_BYTES + 1], back[PAT_ANCHOR_BYTES + 1];
    struct pat_anchor anchor;
    fill(bytes, sizeof bytes, 3);
    fill(back, sizeof back, 4);
    uint8_t behind = back[PAT_ANCHOR_BYTES];
    pat_anchor_from_bytes(&anchor, bytes);
    expect(memcmp(anchor.key, bytes, PAT_KEY_BYTES) == 0, "the key of the struct");
    expect(anchor.depth == pat_get_number(bytes + PAT_ANCHOR_DEPTH), "the depth of the struct");
    expect(anchor.root == pat_get_number(bytes + PAT_ANCHOR_ROOT), "the root nonce of the struct");
    expect(anchor.reserved == pat_get_number(bytes + PAT_ANCHOR_RESERVED),
           "the reserved nonce of the struct");
    pat_anchor_to_bytes(&anchor, back);
    expect(memcmp(bytes, back, PAT_ANCHOR_BYTES) == 0, "the bytes from the struct");
    expect(back[PAT_ANCHOR_BYTES] == behind, "no byte behind them");
}

void test_header(void) {
    expect(PAT_ANCHOR_BYTES == 40 && PAT_KEY_BYTES == 16 && PAT_BLOCK_BYTES == 64, "lengths");
    expect(PAT_ANCHOR_DEPTH == 16 && PAT_ANCHOR_ROOT == 24 && PAT_ANCHOR_RESERVED == 32,
           "places in the anchor");
    expect(PAT_MAX_DEPTH == 16 && PAT_RANGES(3) == 6 && PAT_RANGE_BYTES(3) == 48,
           "depth and ranges");
    expect(PAT_RANGE_BYTES(PAT_MAX_DEPTH) == PAT_MAX_RANGE_BYTES, "the longest list of ranges");
    expect(pat_refusal(0) == PAT_ACCEPTED && pat_node(0) == 0, "accepted");
    expect(pat_refusal(5) == PAT_REFUSED_LENGTH && pat_node(5) == 0, "a refusal without a node");
    uint64_t answer = 8 + 256 * (uint64_t)131071;
    expect(pat_refusal(answer) == PAT_REFUSED_TAG && pat_node(answer) == 131071,
           "a refusal with a node");
    test_version();
    test_numbers();
    test_card_bytes();
    test_aes_calls();
    test_split_lengths();
    test_journal_lengths();
    test_no_messages();
    test_refusal_text();
    test_blocks_under();
    test_no_blocks();
    test_anchor_bytes();
}
