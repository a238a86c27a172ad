// The round store: rounds on a card that anybody may alter, under an anchor that only the chip has.
//
// A card of depth n has 2^n blocks of 64 bytes and a tree of tags over them. The anchor has the
// key, the depth, the root nonce T and the reserved nonce H. The block that an accepted read gives
// is the one that was last written under that anchor, or zero where none was since the format or
// the last wipe, unless somebody has forged a CMAC under its key. (Document 01 calls a tag a mark
// and a nonce a serial.)
//
// CONVENTIONS
//
// Bytes. A call takes buffers, each as a pointer and its length in bytes, and numbers. Buffers need
// no alignment. Numbers in buffers are big-endian.
//
// Pointers. None may be null, not even one whose length is 0, and a buffer must be there in its
// whole length. The buffers of one call may not overlap, not even those that it only reads. Nobody
// else may alter them during the call: a card that a device or another process can reach has to be
// copied into memory of the caller's own first.
//
// Memory. A card is in memory whole, with 6,815,696 bytes at depth 16. Besides its buffers a call
// needs at most PAT_STACK_BYTES of stack, at every depth, its arguments and return address
// included, and nothing of a heap. A dynamic linker that finds memcpy only when a call needs it
// takes more.
//
// Target. The archive is for x86-64: ELF objects, the System V calling convention with its red
// zone, code that runs at any address. It uses the general registers and SSE2 with the registers
// xmm0 to xmm15, which every such processor has; no x87, AVX or AES instruction is in it. Of a C
// library it needs at most memcpy, memset, memmove and memcmp.
//
// Threads. The library has no state: no variable outlives a call, and no memory is allocated. Calls
// on different memory may run at once, and so may reads and checks on the same memory. The steps of
// a split write are on the same memory, and are made one after the other.
//
// Answers. 0 says accepted. Every other answer is a refusal number plus 256 times a node number;
// pat_refusal and pat_node take it apart, and only refusal 8 names a node. A call makes its tests
// in the order in which its refusals are listed below, and answers with the first that fails. A
// refused call leaves every byte of every buffer as it was.
//
// Nodes. The root is node 1, node u has the children 2u and 2u + 1, and block i is node 2^n + i.
// The root is in the anchor, and all the others are on the card.
//
// Nonces. H is the highest root nonce that any call has taken, and T the one that the card has. A
// write, plan or wipe takes H + depth. T is below H where an attempt was lost: a write that was cut
// before its new T was stored, or a plan that was left unfinished. The next one starts at H, so
// that no nonce is used twice. Both are multiples of the depth.
//
// Power cuts. pat_write_journalled is the write for a box that can be switched off at any moment.
// What it leaves goes out to the media in four steps, each of them on its medium for good before
// the next begins:
// 1. the raised anchor, in the place of the old one: H is the new one, T still the old one;
// 2. the journal, in the place of the old one;
// 3. the new anchor, in the place of the raised one: now T is the new one too;
// 4. the ranges of the card, and no other byte of it.
// An anchor must be replaced whole: a cut leaves the one before or the one after. Of two that are
// stored, the later has the greater H, and of equal H the greater T. Every other byte that is being
// written at a cut may be left old, new or as junk; those that are not must stand.
//
// After a cut the host gives anchor, card and journal as they are on their media to pat_recover,
// and puts the journal's ranges out to the card, as is said there. Then the card is the one of
// before the write where T is the old one, and the one of after it where T is the new one. A step
// that fails is a cut, though the power stays: throw away anchor and card in memory, load what is
// on the media, and recover. A recovery that is cut is made anew: one has to be finished, all its
// bytes on the card for good, between a cut and the next write, plan or wipe. Where nothing is left
// to do it changes nothing, so that a host may recover whenever it starts. Whoever alters the card
// or the journal meanwhile can keep a recovery from that, and do no more: what a read accepts is
// right all the same.
//
// A plain write, a split write and a wipe have no journal. Where power fails after their new anchor
// is stored and before the whole card is, the card may be refused with 8, and no recovery helps.
// After such a wipe another one does, since a wipe checks no tag. A box that can lose its power
// writes with the journal.
//
// Not promised: that blocks are secret, that calls take the same time for all keys and cards, and
// that the stack has nothing of the key afterwards.
#ifndef PAT_H
#define PAT_H

#include <stddef.h>
#include <stdint.h>

#ifdef __cplusplus
extern "C" {
#endif

// On every call: the answer must be looked at, and no pointer may be null.
#if defined(__GNUC__)
#define PAT_CALL __attribute__((warn_unused_result, nonnull))
#else
#define PAT_CALL
#endif

// The version of library and header.
#define PAT_VERSION "0.6.0"
#define PAT_VERSION_MAJOR 0
#define PAT_VERSION_MINOR 6
#define PAT_VERSION_PATCH 0

// The stack that any call needs at most.
#define PAT_STACK_BYTES 4096

// An anchor: the key, then the depth, the root nonce T and the reserved nonce H as numbers of 8
// bytes at these places.
#define PAT_ANCHOR_BYTES 40
#define PAT_KEY_BYTES 16
#define PAT_ANCHOR_DEPTH 16
#define PAT_ANCHOR_ROOT 24
#define PAT_ANCHOR_RESERVED 32

// A depth is from 1 to this.
#define PAT_MAX_DEPTH 16

#define PAT_BLOCK_BYTES 64

// The length of a card, 104 * 2^depth - 48 bytes; 0 for a depth that is not 1 to 16. A constant
// expression where the depth is one; the depth is evaluated more than once.
#define PAT_CARD_BYTES(depth)                                                                      \
    ((depth) >= 1 && (depth) <= PAT_MAX_DEPTH ? ((size_t)104 << ((depth)&31)) - 48 : (size_t)0)

// How many ranges a write lists, and what it needs to list them, 8 bytes each; the maximum serves
// all depths.
#define PAT_RANGES(depth) ((size_t)2 * (size_t)(depth))
#define PAT_RANGE_BYTES(depth) (8 * PAT_RANGES(depth))
#define PAT_MAX_RANGE_BYTES 256

// A journal of a journalled write: the new T, a number of 8 bytes, the write's list of ranges, the
// new bytes of these ranges in the order of the list, and the AES-CMAC of all that under the
// anchor's key. The list starts at this place. The length is 56 * depth + 80, and 0 for a depth
// that is not 1 to 16: a constant expression where the depth is one; the depth is evaluated more
// than once. The maximum serves no depth but the greatest: a journal has its own depth's length.
#define PAT_JOURNAL_BYTES(depth)                                                                   \
    ((depth) >= 1 && (depth) <= PAT_MAX_DEPTH ? (size_t)56 * (size_t)(depth) + 80 : (size_t)0)
#define PAT_JOURNAL_ROOT 0
#define PAT_JOURNAL_RANGES 8
#define PAT_MAX_JOURNAL_BYTES 976

// A plan of a split write: the block number, the new root nonce and which tags are put already, as
// numbers of 8 bytes at these places. Bit k of the last, of value 2^k, is for the k-th of the
// plan's nodes, counted from 0 in rising node number. Bits that are for no node mean nothing.
#define PAT_PLAN_BYTES 24
#define PAT_PLAN_INDEX 0
#define PAT_PLAN_ROOT 8
#define PAT_PLAN_FILLED 16

#define PAT_TAG_BYTES 16

// How many messages a plan gives, which is how many tags it awaits, and how many bytes they fill of
// the buffer of messages; 0 for a depth that is not 1 to 16. Constant expressions where the depth
// is one; the depth is evaluated more than once. The buffer itself has one length, for all depths.
#define PAT_MESSAGES(depth)                                                                        \
    ((depth) >= 1 && (depth) <= PAT_MAX_DEPTH ? (size_t)2 * (size_t)(depth) : (size_t)0)
#define PAT_MESSAGES_FILLED(depth)                                                                 \
    ((depth) >= 1 && (depth) <= PAT_MAX_DEPTH ? (size_t)34 * (size_t)(depth) + 112 : (size_t)0)
#define PAT_MESSAGES_BYTES 656

// How many AES calls an accepted call makes on a card of that depth, for those who plan the chip's
// work: 1 for the subkeys of the CMAC, 2 for each tag of an inner node that is checked or made, 5
// for each tag of a block. That is 2 * depth + 4 for a read, 8 * depth + 8 for a write, in place
// and with a journal too, 7 * 2^depth - 3 for a check and for a wipe, and 4 * depth + 2 for a plan.
// The CMAC of a journal, over all of it but its last 16 bytes, is not in these numbers, and a
// recovery has none. The plan's tags are made by the engines, which need 4 * depth + 6 calls for
// all of them, the subkeys being counted with the plan: plan and engines together make the write's
// 8 * depth + 8. An engine makes the subkeys once for its key, which is one call more. A put makes
// none. A refusal with 8 makes those up to and with the wrong tag, and so never more than these;
// every other refusal makes none. 0 for a depth that is not 1 to 16. Constant expressions where the
// depth is one; the depth is evaluated more than once.
#define PAT_AES_READ(depth)                                                                        \
    ((depth) >= 1 && (depth) <= PAT_MAX_DEPTH ? (size_t)2 * (size_t)(depth) + 4 : (size_t)0)
#define PAT_AES_WRITE(depth)                                                                       \
    ((depth) >= 1 && (depth) <= PAT_MAX_DEPTH ? (size_t)8 * (size_t)(depth) + 8 : (size_t)0)
#define PAT_AES_CHECK(depth)                                                                       \
    ((depth) >= 1 && (depth) <= PAT_MAX_DEPTH ? ((size_t)7 << ((depth)&31)) - 3 : (size_t)0)
#define PAT_AES_WIPE(depth) PAT_AES_CHECK(depth)
#define PAT_AES_PLAN(depth)                                                                        \
    ((depth) >= 1 && (depth) <= PAT_MAX_DEPTH ? (size_t)4 * (size_t)(depth) + 2 : (size_t)0)

// Why a call is refused. Behind the colon, who can mend it.
enum pat_refusals {
    PAT_ACCEPTED = 0,
    PAT_REFUSED_DEPTH = 1,        // the depth is 0 or above 16: the calling software
    PAT_REFUSED_ROOT_NONCE = 2,   // T or H is no multiple of the depth, or H is below T: the anchor
    PAT_REFUSED_CARD_LENGTH = 3,  // not the length of a card of this depth: whoever has the card
    PAT_REFUSED_BLOCK_NUMBER = 4, // the block number is 2^depth or above: the calling software
    PAT_REFUSED_LENGTH = 5,       // anchor not 40 bytes, block or buffer not 64, plan not 24,
                                  // messages not 656, or tag not 16: the calling software
    PAT_REFUSED_RANGE_LENGTH = 6, // the range buffer is too short: the calling software
    PAT_REFUSED_SPENT = 7,        // no write or wipe fits, H + depth passes 2^64 - 1: the anchor
    PAT_REFUSED_TAG = 8,          // the tag of the node named is wrong: whoever has the card
    PAT_REFUSED_NOT_AWAITED = 9,  // the plan awaits no tag of that node: the calling software
    PAT_REFUSED_JOURNAL = 10      // not the length of a journal of this depth, or one to be applied
                                  // that has the ranges of no write: whoever keeps the journal
};

// The refusal number of an answer.
static inline unsigned pat_refusal(uint64_t answer) {
    return (unsigned)(answer % 256);
}

// The node that an answer names, 0 where it names none.
static inline uint64_t pat_node(uint64_t answer) {
    return answer / 256;
}

// What an answer says, or a refusal number alone: a constant sentence without its full stop. It has
// a text for what the library never answers, too.
static inline const char *pat_refusal_text(uint64_t answer) {
    switch (pat_refusal(answer) == PAT_REFUSED_TAG ? (uint64_t)PAT_REFUSED_TAG : answer) {
    case PAT_ACCEPTED:
        return "the call is accepted";
    case PAT_REFUSED_DEPTH:
        return "the depth is 0 or above 16";
    case PAT_REFUSED_ROOT_NONCE:
        return "the root nonce or the reserved nonce is no multiple of the depth, or the reserved "
               "nonce is the lower one";
    case PAT_REFUSED_CARD_LENGTH:
        return "the card has not the length of its depth";
    case PAT_REFUSED_BLOCK_NUMBER:
        return "the card has no block of that number";
    case PAT_REFUSED_LENGTH:
        return "the anchor has not 40 bytes, or the block not 64, the plan not 24, the messages "
               "not 656 or the tag not 16";
    case PAT_REFUSED_RANGE_LENGTH:
        return "the range buffer is too short";
    case PAT_REFUSED_SPENT:
        return "the root nonces are used up";
    case PAT_REFUSED_TAG:
        return "a tag on the card is wrong";
    case PAT_REFUSED_NOT_AWAITED:
        return "the plan awaits no tag of that node";
    case PAT_REFUSED_JOURNAL:
        return "the journal has not the length of its depth, or the ranges of no write";
    default:
        return "this is no answer of the library";
    }
}

// PAT_CARD_BYTES as a function.
static inline size_t pat_card_bytes(uint64_t depth) {
    return PAT_CARD_BYTES(depth);
}

// What pat_first_block and pat_last_block give where there is no such node.
#define PAT_NO_BLOCK UINT64_MAX

// The block that is reached from a node by going to the same side, 0 or 1, at every level.
static inline uint64_t pat_outer_block(uint64_t depth, uint64_t node, unsigned side) {
    if (pat_card_bytes(depth) == 0 || node == 0 || node >> depth > 1)
        return PAT_NO_BLOCK;
    while (node >> depth == 0)
        node = 2 * node + side;
    return node - ((uint64_t)1 << depth);
}

// The first and the last block under a node of a card of that depth: of the root, all blocks; of a
// block's own node, that block. PAT_NO_BLOCK for node 0, for a node of 2^(depth + 1) or above, and
// for a depth that is not 1 to 16.
static inline uint64_t pat_first_block(uint64_t depth, uint64_t node) {
    return pat_outer_block(depth, node, 0);
}

static inline uint64_t pat_last_block(uint64_t depth, uint64_t node) {
    return pat_outer_block(depth, node, 1);
}

// A number of 8 bytes, as an anchor has its depth, T and H.
static inline uint64_t pat_get_number(const uint8_t *bytes) {
    uint64_t number = 0;
    for (int k = 0; k < 8; k++)
        number = number << 8 | bytes[k];
    return number;
}

static inline void pat_put_number(uint8_t *bytes, uint64_t number) {
    for (int k = 7; k >= 0; k--, number >>= 8)
        bytes[k] = (uint8_t)number;
}

// Where range k of a write's list, counted from 0, starts on the card, and how long it is.
static inline uint32_t pat_range_start(const uint8_t *ranges, size_t k) {
    return (uint32_t)(pat_get_number(ranges + 8 * k) >> 32);
}

static inline uint32_t pat_range_length(const uint8_t *ranges, size_t k) {
    return (uint32_t)pat_get_number(ranges + 8 * k);
}

// Message k of a plan of a block, counted from 0: the node that its tag is for, and where it starts
// in the buffer of messages and how long it is. All zero where there is none: for a depth that is
// not 1 to 16, a block number of 2^depth or above, and a k of PAT_MESSAGES(depth) or above.
struct pat_message {
    uint64_t node;
    size_t start;
    size_t length;
};

// C++ has the struct, by its whole name, beside the function, which a compiler may warn of.
#if defined(__cplusplus) && defined(__GNUC__)
#pragma GCC diagnostic push
#pragma GCC diagnostic ignored "-Wshadow"
#endif
static inline struct pat_message pat_message(uint64_t depth, uint64_t index, unsigned k) {
    struct pat_message message = {0, 0, 0};
    if (k >= PAT_MESSAGES(depth) || index >> depth != 0)
        return message;
    size_t inner = PAT_MESSAGES(depth) - 2;
    message.node = 2 * ((((uint64_t)1 << depth) + index) >> (depth - k / 2)) + k % 2;
    message.start = k < inner ? (size_t)17 * k : 17 * inner + 73 * (k - inner);
    message.length = k < inner ? 17 : 73;
    return message;
}
#if defined(__cplusplus) && defined(__GNUC__)
#pragma GCC diagnostic pop
#endif

// Makes an empty card: all blocks and nonces zero, all tags right for T = 0. Takes key and depth
// from the anchor and sets its T and H to 0, whatever they were.
//
// Give a key to one format only: a second would use its nonces again, and then an old card can pass
// for a new one. pat_wipe empties a card under the key that it has.
//
// Refused 5: the anchor has not 40 bytes. 1: depth. 3: card length.
uint64_t pat_format(uint8_t *anchor, size_t anchor_len, uint8_t *card, size_t card_len) PAT_CALL;

// Copies a block into the buffer, once every tag on the path from the root to it is right. Alters
// nothing else.
//
// Refused 5: the anchor has not 40 bytes. 1: depth. 2: T or H. 3: card length. 4: block number.
// 5: the buffer has not 64 bytes. 8: a tag on the path is wrong, the first from the root downwards.
uint64_t pat_read(const uint8_t *anchor, size_t anchor_len, const uint8_t *card, size_t card_len,
                  uint64_t index, uint8_t *buffer, size_t buffer_len) PAT_CALL;

// Puts a new block on the card, and H plus the depth into the anchor, as the new T and as the new
// H. The first 16 * depth bytes of the range buffer list what changed on the card: start and length
// of each range, 4 bytes each, sorted by start, neighbours not merged. The rest of the card and of
// the range buffer stay as they were.
//
// Store the new anchor before any of the ranges: a tag that was seen on a card must not have a
// nonce that is used again. A card of another time than its anchor is refused with 8. After a cut
// between anchor and last range so is this card, where a read, write or check meets an old part,
// and to wipe it or to format another one is all that helps: a box that can lose its power calls
// pat_write_journalled.
//
// Refused 5: the anchor has not 40 bytes. 1: depth. 2: T or H. 3: card length. 4: block number.
// 5: the block has not 64 bytes. 6: range buffer. 7: the nonces are spent, for a wipe too; format
// another card with a new key. 8: a tag is wrong, the first from the root downwards, at each level
// the path's node and then its sibling; the tag of the block that is replaced is not looked at.
uint64_t pat_write(uint8_t *anchor, size_t anchor_len, uint8_t *card, size_t card_len,
                   uint64_t index, const uint8_t *block, size_t block_len, uint8_t *ranges,
                   size_t ranges_len) PAT_CALL;

// The same write, to the same card, ranges and anchor, for a box that can lose its power. Besides
// it gives the anchor for the first step, raised, which has the new H and still the old T, and
// fills the journal. The four steps in which all of this goes out are at the head of this file. The
// order is what the promise rests on: with the journal out before H is raised, a lost write's
// nonces could be used again; with T out before the journal, or the ranges before T, the card could
// be lost. A step that fails is a cut, as is said there.
//
// The raised anchor and the journal are new bytes in memory of the caller's own; what was in them
// before plays no part. The raised anchor has the key too. Before the next write, plan or wipe the
// card has to be settled: all ranges of the last write on it for good, by that write's own fourth
// step or by a finished recovery.
//
// Refused 5: the anchor or the raised one has not 40 bytes. 1: depth. 2: T or H. 3: card length.
// 10: the journal has not PAT_JOURNAL_BYTES(depth) bytes. 4: block number. 5: the block has not 64
// bytes. 6: range buffer. 7: the nonces are spent. 8: a tag is wrong, the same as in pat_write.
uint64_t pat_write_journalled(uint8_t *anchor, size_t anchor_len, uint8_t *raised,
                              size_t raised_len, uint8_t *card, size_t card_len, uint64_t index,
                              const uint8_t *block, size_t block_len, uint8_t *ranges,
                              size_t ranges_len, uint8_t *journal, size_t journal_len) PAT_CALL;

// Applies a journal: its new bytes take their places on the card if its T is the anchor's and its
// tag is right. Any other journal, one of zeros too, is passed over: the answer is 0 and nothing
// changes. It looks at no byte of the card, and alters neither anchor nor journal.
//
// The host puts the ranges of a journal that applies, listed at PAT_JOURNAL_RANGES, out to the
// card's medium and syncs it, even if nothing changed: after a sync that failed, a card that is
// read through a cache can have bytes that are on no medium. The anchor has to be on its medium for
// good before. Where no journal was ever written there is nothing to recover.
//
// The answer does not say whether the journal applies. It does if the card changed, and else if a
// recovery of a copy with every bit flipped changes that copy. Never follow the list of ranges of a
// journal that changed neither: it may be anybody's. To write the whole card out needs no list.
//
// It does not check the card. One that was damaged besides, or is of another time, is refused with
// 8 after it as before.
//
// Refused 5: the anchor has not 40 bytes. 1: depth. 2: T or H. 3: card length. 10: the journal has
// not PAT_JOURNAL_BYTES(depth) bytes, or is to be applied and its ranges are those of no write,
// which nobody makes who has not the key.
uint64_t pat_recover(const uint8_t *anchor, size_t anchor_len, uint8_t *card, size_t card_len,
                     const uint8_t *journal, size_t journal_len) PAT_CALL;

// Checks every tag on the card. Alters nothing.
//
// Refused 5: the anchor has not 40 bytes. 1: depth. 2: T or H. 3: card length. 8: a tag is wrong,
// the one of the lowest node number.
uint64_t pat_check(const uint8_t *anchor, size_t anchor_len, const uint8_t *card,
                   size_t card_len) PAT_CALL;

// Empties the card under the key that it has: all blocks zero, all nonces on the card H plus the
// depth, all tags right for that as the new T. Puts it into the anchor, as T and as H.
//
// It looks at no byte of the card, which may be damaged, of another time or never formatted. What
// was on it is gone for good: no card of before the wipe is accepted again.
//
// Store the new anchor before any of the card: a tag that was seen on a card must not have a nonce
// that is used again. After a cut between the two every read, write and check is refused with 8;
// after one while the card is stored, a check, and each read and write that meets an old part. To
// wipe again mends it.
//
// Refused 5: the anchor has not 40 bytes. 1: depth. 2: T or H. 3: card length. 7: the nonces are
// spent; format another card with a new key.
uint64_t pat_wipe(uint8_t *anchor, size_t anchor_len, uint8_t *card, size_t card_len) PAT_CALL;

// A split write, for a box with several cipher engines: pat_plan makes the tests of a write and all
// of its changes but the tags and T, the engines make the tags, and pat_put_tag puts them on the
// card, one in each call and in any order; the last one moves T. If each is the AES-CMAC of its
// message under the anchor's key, then card, anchor and ranges end as pat_write leaves them.
//
// pat_plan raises H by the depth and leaves T. It gives the path's inner nodes their new nonces and
// the leaf its block; no tag changes. It lists the ranges as a write does. The plan gets the block
// number, the new T, which is the raised H, and no tag put. The first PAT_MESSAGES_FILLED(depth)
// bytes of the messages get the messages of the path's nodes and their siblings, in rising node
// number and end to end: the nonce or block of the node as it is now, 8 or 64 bytes, the new nonce
// of its parent, 8 bytes, and its side, 0 for an even node and 1 for an odd one. pat_message takes
// them apart. The rest of the anchor, the card, the range buffer and the messages stays as it was.
//
// The host goes on in this order:
// 1. It stores the anchor, in which H is raised: before any message or tag leaves the chip.
// 2. It gives each message to an engine. The messages are no longer needed by any call, and may be
//    read while tags are put.
// 3. It puts each tag as it comes, by a call of pat_put_tag. Each call gets anchor, plan and card
//    as the step before left them, and no other call on this anchor and card stands between the
//    plan and its last put, which is the PAT_MESSAGES(depth)-th that is accepted.
// 4. After the last put it stores the new anchor, and only then copies the ranges out, as for
//    pat_write.
//
// Plan and messages are trusted as the anchor is: whoever can alter them chooses T, or what is
// tagged. Keep them where nobody else can.
//
// Until the last put the card does not go with its anchor: that still has the old T, and tags of
// whatever is new along the path are wrong under it. So nothing of plan or card is stored before.
// A plan may be left unfinished. It is a lost attempt then, and is thrown away with its tags, those
// too that are still to come. The host goes on with the raised anchor, never with one of before,
// and with the card's bytes of before, which it has kept or loads anew. The next plan, write or
// wipe takes nonces of its own: no tag of the plan that was left is right on a later card, whoever
// has seen it. But a put under the old plan would set T back after a later write, and a late tag
// that is put under the next plan, which may await the same nodes, takes the place of that plan's
// own. So the host must know of each tag which plan it was made for.
//
// A refused pat_plan leaves anchor, plan and messages as they were. Put no tag after it: whatever
// bytes the plan has, those of an earlier one or zeros, they stand for some plan, which may await
// that tag. After a refused pat_put_tag the write goes on.
//
// Refused 5: the anchor has not 40 bytes, the plan not 24 or the messages not 656. 1: depth.
// 2: T or H. 3: card length. 4: block number. 5: the block has not 64 bytes. 6: range buffer.
// 7: the nonces are spent. 8: a tag is wrong, the same as in a write.
uint64_t pat_plan(uint8_t *anchor, size_t anchor_len, uint8_t *card, size_t card_len,
                  uint64_t index, const uint8_t *block, size_t block_len, uint8_t *ranges,
                  size_t ranges_len, uint8_t *plan, size_t plan_len, uint8_t *messages,
                  size_t messages_len) PAT_CALL;

// Puts the tag of a node on the card and notes it in the plan. If now all PAT_MESSAGES(depth) tags
// are put, the anchor's T becomes the plan's, and its H stays; else all of it stays. Every other
// byte, and every other bit of the plan, stays.
//
// The tag is not verified. A wrong one is found, and refused with 8, by the next read of a block
// under its node, by a write or plan that checks that node, and by a check. It stays: a second tag
// for its node is refused with 9. A host that doubts its engines keeps the raised anchor and the
// card of before. After the last put, and before it stores anything, it makes a pat_read of the
// block and, on copies of anchor and card, a pat_plan of the same block, which it throws away with
// its messages unsent, and with the copies: together these check every tag that was put, with
// 6 * depth + 6 AES calls. If one is refused with 8 it goes back to what it kept, and leaves the
// plan. If the plan is refused with 7, since the write took the last nonces, it has checked
// nothing, and a pat_check does. That costs more, and is refused for damage elsewhere too, which
// neither write nor plan looks at.
//
// It has an answer for a plan of any bytes and looks at no byte of the card. T becomes whatever
// such a plan says. If that is above H or no multiple of the depth, every call but a format refuses
// the anchor with 2, a wipe too.
//
// Refused 5: the anchor has not 40 bytes, the plan not 24 or the tag not 16. 1: depth. 2: T or H.
// 3: card length. 9: the plan's block number is 2^depth or above, the node is none of the plan's,
// or its tag is put already; no node is named.
uint64_t pat_put_tag(uint8_t *anchor, size_t anchor_len, uint8_t *plan, size_t plan_len,
                     uint8_t *card, size_t card_len, uint64_t node, const uint8_t *tag,
                     size_t tag_len) PAT_CALL;

// An anchor for code that keeps it in memory of its own, as boot code does: the same four things,
// the numbers as the machine has them.
struct pat_anchor {
    uint8_t key[PAT_KEY_BYTES];
    uint64_t depth;
    uint64_t root;
    uint64_t reserved;
};

// Such an anchor from the 40 bytes of the other form, and the 40 bytes from it. Depth, T and H are
// not tested.
static inline void pat_anchor_from_bytes(struct pat_anchor *anchor,
                                         const uint8_t bytes[PAT_ANCHOR_BYTES]) {
    for (int k = 0; k < PAT_KEY_BYTES; k++)
        anchor->key[k] = bytes[k];
    anchor->depth = pat_get_number(bytes + PAT_ANCHOR_DEPTH);
    anchor->root = pat_get_number(bytes + PAT_ANCHOR_ROOT);
    anchor->reserved = pat_get_number(bytes + PAT_ANCHOR_RESERVED);
}

static inline void pat_anchor_to_bytes(const struct pat_anchor *anchor,
                                       uint8_t bytes[PAT_ANCHOR_BYTES]) {
    for (int k = 0; k < PAT_KEY_BYTES; k++)
        bytes[k] = anchor->key[k];
    pat_put_number(bytes + PAT_ANCHOR_DEPTH, anchor->depth);
    pat_put_number(bytes + PAT_ANCHOR_ROOT, anchor->root);
    pat_put_number(bytes + PAT_ANCHOR_RESERVED, anchor->reserved);
}

// pat_write on such an anchor: an accepted write moves its nonces where they lie. The answers are
// the same, but for the length of the anchor, which is not tested.
uint64_t pat_write_in_place(struct pat_anchor *anchor, uint8_t *card, size_t card_len,
                            uint64_t index, const uint8_t *block, size_t block_len, uint8_t *ranges,
                            size_t ranges_len) PAT_CALL;

#ifdef __cplusplus
}
#endif

#endif
