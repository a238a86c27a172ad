// The header from C++: included first and twice, every call linked and every helper used.
#include "pat.h"

#include <array>
#include <cstring>

static const unsigned depth = 3;

static_assert(PAT_AES_READ(depth) == 10 && PAT_AES_WRITE(depth) == 32, "AES calls of one block");
static_assert(PAT_AES_CHECK(depth) == 53 && PAT_AES_WIPE(depth) == 53, "AES calls of a whole card");
static_assert(PAT_AES_READ(0) == 0 && PAT_AES_WRITE(17) == 0, "none where no call is accepted");
static_assert(PAT_AES_PLAN(depth) == 14 && PAT_AES_PLAN(0) == 0, "AES calls of a plan");
static_assert(PAT_MESSAGES(depth) == 6 && PAT_MESSAGES_FILLED(depth) == 214, "a plan's messages");
static_assert(PAT_JOURNAL_BYTES(depth) == 248 && PAT_JOURNAL_BYTES(0) == 0, "a journal");
static_assert(PAT_AES_CHECK(-1) == 0 && PAT_AES_WIPE(UINT64_MAX) == 0, "none, here neither");

// A write on the anchor as a struct, and the anchor's bytes after it.
static bool in_place(uint8_t *anchor, uint8_t *card, const uint8_t *block, uint8_t *ranges) {
    pat_anchor own;
    pat_anchor_from_bytes(&own, anchor);
    uint64_t answer = pat_write_in_place(&own, card, pat_card_bytes(depth), 4, block,
                                         PAT_BLOCK_BYTES, ranges, PAT_RANGE_BYTES(depth));
    pat_anchor_to_bytes(&own, anchor);
    return answer == PAT_ACCEPTED && own.root == 2 * depth;
}

// A wipe, after which every block is zero again.
static bool wiped(uint8_t *anchor, uint8_t *card) {
    static const std::array<uint8_t, PAT_BLOCK_BYTES> zero{};
    std::array<uint8_t, PAT_BLOCK_BYTES> buffer;
    buffer.fill(1);
    uint64_t answer = pat_wipe(anchor, PAT_ANCHOR_BYTES, card, pat_card_bytes(depth));
    if (answer != PAT_ACCEPTED || pat_get_number(anchor + PAT_ANCHOR_ROOT) != 3 * depth)
        return false;
    answer = pat_read(anchor, PAT_ANCHOR_BYTES, card, pat_card_bytes(depth), 5, buffer.data(),
                      buffer.size());
    return answer == PAT_ACCEPTED && buffer == zero;
}

// A split write with tags that are all zero: every place is filled, T moves, and a read finds it.
static bool split(uint8_t *anchor, uint8_t *card, const uint8_t *block, uint8_t *ranges) {
    std::array<uint8_t, PAT_PLAN_BYTES> plan{};
    std::array<uint8_t, PAT_MESSAGES_BYTES> messages{};
    std::array<uint8_t, PAT_TAG_BYTES> tag{};
    std::array<uint8_t, PAT_BLOCK_BYTES> buffer{};
    uint64_t root = pat_get_number(anchor + PAT_ANCHOR_ROOT);
    uint64_t answer = pat_plan(anchor, PAT_ANCHOR_BYTES, card, pat_card_bytes(depth), 5, block,
                               PAT_BLOCK_BYTES, ranges, PAT_RANGE_BYTES(depth), plan.data(),
                               plan.size(), messages.data(), messages.size());
    for (unsigned k = 0; k < PAT_MESSAGES(depth) && answer == PAT_ACCEPTED; k++) {
        struct pat_message message = pat_message(depth, 5, k);
        if (messages[message.start + message.length - 1] != message.node % 2)
            return false;
        answer = pat_put_tag(anchor, PAT_ANCHOR_BYTES, plan.data(), plan.size(), card,
                             pat_card_bytes(depth), message.node, tag.data(), tag.size());
    }
    if (answer != PAT_ACCEPTED || pat_get_number(anchor + PAT_ANCHOR_ROOT) != root + depth)
        return false;
    if (pat_put_tag(anchor, PAT_ANCHOR_BYTES, plan.data(), plan.size(), card, pat_card_bytes(depth),
                    2, tag.data(), tag.size()) != PAT_REFUSED_NOT_AWAITED)
        return false;
    answer = pat_read(anchor, PAT_ANCHOR_BYTES, card, pat_card_bytes(depth), 5, buffer.data(),
                      buffer.size());
    return answer == PAT_REFUSED_TAG + 256 * 3;
}

// A journalled write and the recovery of the card of before: T is old in the raised anchor, and new
// in the one behind it.
static bool journalled(uint8_t *anchor, uint8_t *card, const uint8_t *block, uint8_t *ranges) {
    std::array<uint8_t, PAT_ANCHOR_BYTES> raised{};
    std::array<uint8_t, PAT_JOURNAL_BYTES(depth)> journal{};
    std::array<uint8_t, PAT_CARD_BYTES(depth)> before;
    std::memcpy(before.data(), card, before.size());
    uint64_t root = pat_get_number(anchor + PAT_ANCHOR_ROOT);
    uint64_t answer = pat_write_journalled(
        anchor, PAT_ANCHOR_BYTES, raised.data(), raised.size(), card, pat_card_bytes(depth), 2,
        block, PAT_BLOCK_BYTES, ranges, PAT_RANGE_BYTES(depth), journal.data(), journal.size());
    if (answer != PAT_ACCEPTED || pat_get_number(journal.data() + PAT_JOURNAL_ROOT) != root + depth)
        return false;
    if (pat_get_number(raised.data() + PAT_ANCHOR_ROOT) != root ||
        pat_get_number(raised.data() + PAT_ANCHOR_RESERVED) != root + depth)
        return false;
    answer = pat_recover(anchor, PAT_ANCHOR_BYTES, before.data(), before.size(), journal.data(),
                         journal.size());
    return answer == PAT_ACCEPTED && std::memcmp(before.data(), card, before.size()) == 0 &&
           std::memcmp(journal.data() + PAT_JOURNAL_RANGES, ranges, PAT_RANGE_BYTES(depth)) == 0;
}

int main() {
    std::array<uint8_t, PAT_ANCHOR_BYTES> anchor{};
    std::array<uint8_t, PAT_BLOCK_BYTES> block{}, buffer{};
    std::array<uint8_t, PAT_MAX_RANGE_BYTES> ranges{};
    std::array<uint8_t, PAT_CARD_BYTES(depth)> card{};

    pat_put_number(anchor.data() + PAT_ANCHOR_DEPTH, depth);
    std::memcpy(block.data(), "a round", 7);
    uint64_t answer = pat_format(anchor.data(), anchor.size(), card.data(), card.size());
    if (answer != PAT_ACCEPTED)
        return 1;
    answer = pat_write(anchor.data(), anchor.size(), card.data(), card.size(), 5, block.data(),
                       block.size(), ranges.data(), ranges.size());
    if (answer != PAT_ACCEPTED || pat_get_number(anchor.data() + PAT_ANCHOR_ROOT) != depth)
        return 2;
    if (pat_range_start(ranges.data(), 5) != 544 || pat_range_length(ranges.data(), 5) != 80)
        return 3;
    answer = pat_read(anchor.data(), anchor.size(), card.data(), card.size(), 5, buffer.data(),
                      buffer.size());
    if (answer != PAT_ACCEPTED || buffer != block)
        return 4;
    if (!in_place(anchor.data(), card.data(), block.data(), ranges.data()))
        return 5;
    card[96] ^= 1;
    answer = pat_check(anchor.data(), anchor.size(), card.data(), card.size());
    bool refused = pat_refusal(answer) == PAT_REFUSED_TAG && pat_node(answer) == 6;
    bool blocks = pat_first_block(depth, 6) == 4 && pat_last_block(depth, 6) == 5;
    if (!refused || !blocks || std::strlen(pat_refusal_text(answer)) == 0)
        return 6;
    if (!wiped(anchor.data(), card.data()))
        return 7;
    if (!journalled(anchor.data(), card.data(), block.data(), ranges.data()))
        return 8;
    return split(anchor.data(), card.data(), block.data(), ranges.data()) ? 0 : 9;
}
