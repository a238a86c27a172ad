#include "calls.h"

#include <stdarg.h>
#include <stdio.h>
#include <stdlib.h>
#include <string.h>

const uint8_t test_key[PAT_KEY_BYTES] = "@ABCDEFGHIJKLMNO";

static struct count counted;

void expect(bool holds, const char *format, ...) {
    counted.held++;
    if (holds)
        return;
    va_list values;
    va_start(values, format);
    fputs("FAILED: ", stderr);
    vfprintf(stderr, format, values);
    fputc('\n', stderr);
    va_end(values);
    exit(1);
}

struct count count_so_far(void) {
    return counted;
}

static uint64_t call(enum call kind, struct outcome *o, uint64_t index) {
    switch (kind) {
    case FORMAT:
        return pat_format(o->anchor.bytes, o->anchor.length, o->card.bytes, o->card.length);
    case READ:
        return pat_read(o->anchor.bytes, o->anchor.length, o->card.bytes, o->card.length, index,
                        o->buffer.bytes, o->buffer.length);
    case WRITE:
        return pat_write(o->anchor.bytes, o->anchor.length, o->card.bytes, o->card.length, index,
                         o->buffer.bytes, o->buffer.length, o->ranges.bytes, o->ranges.length);
    case CHECK:
        return pat_check(o->anchor.bytes, o->anchor.length, o->card.bytes, o->card.length);
    case WIPE:
        return pat_wipe(o->anchor.bytes, o->anchor.length, o->card.bytes, o->card.length);
    case PLAN:
        return pat_plan(o->anchor.bytes, o->anchor.length, o->card.bytes, o->card.length, index,
                        o->buffer.bytes, o->buffer.length, o->ranges.bytes, o->ranges.length,
                        o->plan.bytes, o->plan.length, o->messages.bytes, o->messages.length);
    case PUT:
        return pat_put_tag(o->anchor.bytes, o->anchor.length, o->plan.bytes, o->plan.length,
                           o->card.bytes, o->card.length, index, o->buffer.bytes, o->buffer.length);
    case JOURNALLED:
        return pat_write_journalled(o->anchor.bytes, o->anchor.length, o->raised.bytes,
                                    o->raised.length, o->card.bytes, o->card.length, index,
                                    o->buffer.bytes, o->buffer.length, o->ranges.bytes,
                                    o->ranges.length, o->journal.bytes, o->journal.length);
    case RECOVER:
        return pat_recover(o->anchor.bytes, o->anchor.length, o->card.bytes, o->card.length,
                           o->journal.bytes, o->journal.length);
    }
    return UINT64_MAX;
}

struct outcome perform(const struct arguments *a) {
    struct outcome o = {0};
    enum access changes = a->call == READ || a->call == CHECK ? READ_ONLY : READ_WRITE;
    lend(&o.anchor, a->anchor, a->anchor_len, a->call == RECOVER ? READ_ONLY : changes);
    lend(&o.card, a->card, a->card_len, changes);
    lend(&o.buffer, a->buffer, a->buffer_len, a->call == READ ? READ_WRITE : READ_ONLY);
    lend(&o.ranges, a->ranges, a->ranges_len, READ_WRITE);
    if (a->call == PLAN || a->call == PUT)
        lend(&o.plan, a->plan, a->plan_len, READ_WRITE);
    if (a->call == PLAN)
        lend(&o.messages, a->messages, a->messages_len, READ_WRITE);
    if (a->call == JOURNALLED)
        lend(&o.raised, a->raised, a->raised_len, READ_WRITE);
    if (a->call == JOURNALLED || a->call == RECOVER)
        lend(&o.journal, a->journal, a->journal_len, a->call == RECOVER ? READ_ONLY : READ_WRITE);
    counted.calls++;
    o.answer = call(a->call, &o, a->index);
    return o;
}

void settle(struct outcome *o) {
    bool kept = take_back(&o->anchor);
    kept = take_back(&o->card) && kept;
    kept = take_back(&o->buffer) && kept;
    kept = take_back(&o->ranges) && kept;
    kept = take_back(&o->plan) && kept;
    kept = take_back(&o->messages) && kept;
    kept = take_back(&o->raised) && kept;
    kept = take_back(&o->journal) && kept;
    expect(kept, "a call wrote before the start of a buffer");
}

bool all_unchanged(const struct outcome *o) {
    return unchanged(&o->anchor) && unchanged(&o->card) && unchanged(&o->buffer) &&
           unchanged(&o->ranges) && unchanged(&o->plan) && unchanged(&o->messages) &&
           unchanged(&o->raised) && unchanged(&o->journal);
}

struct arguments arguments_for(enum call kind, const struct store *s, uint64_t index,
                               const uint8_t *block) {
    static uint8_t ranges[PAT_MAX_RANGE_BYTES + 64], buffer[PAT_BLOCK_BYTES];
    static uint8_t plan[PAT_PLAN_BYTES + 64], messages[PAT_MESSAGES_BYTES + 64];
    static uint8_t raised[PAT_ANCHOR_BYTES + 64], journal[PAT_MAX_JOURNAL_BYTES + 64];
    const bool writes = kind == WRITE || kind == PLAN || kind == JOURNALLED;
    struct arguments a = {.call = kind, .index = index, .anchor = s->anchor, .card = s->card};
    fill(ranges, sizeof ranges, 1);
    fill(buffer, sizeof buffer, 2);
    fill(plan, sizeof plan, 3);
    fill(messages, sizeof messages, 4);
    fill(raised, sizeof raised, 5);
    fill(journal, sizeof journal, 6);
    a.anchor_len = PAT_ANCHOR_BYTES;
    a.card_len = s->card_len;
    a.buffer = writes || kind == PUT ? block : buffer;
    a.buffer_len = writes || kind == READ ? PAT_BLOCK_BYTES : kind == PUT ? PAT_TAG_BYTES : 0;
    a.ranges = ranges;
    a.ranges_len = writes ? PAT_RANGE_BYTES(s->depth) : 0;
    a.plan = plan;
    a.plan_len = PAT_PLAN_BYTES;
    a.messages = messages;
    a.messages_len = PAT_MESSAGES_BYTES;
    a.raised = raised;
    a.raised_len = PAT_ANCHOR_BYTES;
    a.journal = journal;
    a.journal_len = PAT_JOURNAL_BYTES(s->depth);
    return a;
}

// A store takes over what an accepted call left.
static void take_over(struct store *s, struct outcome *o, const char *what) {
    expect(o->answer == 0, "depth %u: %s is accepted, and not answered %llu", s->depth, what,
           (unsigned long long)o->answer);
    memcpy(s->anchor, o->anchor.bytes, PAT_ANCHOR_BYTES);
    memcpy(s->card, o->card.bytes, s->card_len);
    settle(o);
}

struct store make_store(unsigned depth) {
    struct store s = {.depth = depth, .card_len = pat_card_bytes(depth)};
    s.card = malloc(s.card_len);
    if (s.card == NULL)
        exit(2);
    fill(s.card, s.card_len, depth);
    memcpy(s.anchor, test_key, PAT_KEY_BYTES);
    pat_put_number(s.anchor + PAT_ANCHOR_DEPTH, depth);
    set_nonces(&s, 0x0123456789abcdef, 0x0fedcba987654321);
    struct arguments a = arguments_for(FORMAT, &s, 0, NULL);
    struct outcome o = perform(&a);
    take_over(&s, &o, "a format");
    return s;
}

struct store used_store(unsigned depth) {
    struct store s = make_store(depth);
    uint8_t block[PAT_BLOCK_BYTES];
    for (uint64_t k = 0; k < 4; k++) {
        fill(block, sizeof block, k);
        must_write(&s, k * 5 % ((uint64_t)1 << depth), block);
        if (k % 2 == 1)
            lose_attempt(&s);
    }
    return s;
}

struct store copy_store(const struct store *s) {
    struct store copy = *s;
    copy.card = malloc(s->card_len);
    if (copy.card == NULL)
        exit(2);
    memcpy(copy.card, s->card, s->card_len);
    return copy;
}

void drop_store(struct store *s) {
    free(s->card);
}

void must_write(struct store *s, uint64_t index, const uint8_t *block) {
    struct arguments a = arguments_for(WRITE, s, index, block);
    struct outcome o = perform(&a);
    take_over(s, &o, "a write on an untouched card");
}

void must_wipe(struct store *s) {
    struct arguments a = arguments_for(WIPE, s, 0, NULL);
    struct outcome o = perform(&a);
    take_over(s, &o, "a wipe");
}

void lose_attempt(struct store *s) {
    uint64_t reserved = nonce_of(s, PAT_ANCHOR_RESERVED);
    pat_put_number(s->anchor + PAT_ANCHOR_RESERVED, reserved + s->depth);
}

uint64_t nonce_of(const struct store *s, size_t place) {
    return pat_get_number(s->anchor + place);
}

void set_nonces(struct store *s, uint64_t root, uint64_t reserved) {
    pat_put_number(s->anchor + PAT_ANCHOR_ROOT, root);
    pat_put_number(s->anchor + PAT_ANCHOR_RESERVED, reserved);
}

void fill(uint8_t *bytes, size_t length, uint64_t seed) {
    uint64_t state = seed * 0x9e3779b97f4a7c15u + 1;
    for (size_t k = 0; k < length; k++) {
        state = state * 6364136223846793005u + 1442695040888963407u;
        bytes[k] = (uint8_t)(state >> 56);
    }
}

size_t unhex(uint8_t *bytes, const char *digits) {
    size_t length = 0;
    for (; *digits != '\0'; digits += 2) {
        const char pair[] = {digits[0], digits[1], '\0'};
        bytes[length++] = (uint8_t)strtoul(pair, NULL, 16);
    }
    return length;
}

uint64_t digest(const uint8_t *bytes, size_t length) {
    uint64_t value = 0xcbf29ce484222325;
    for (size_t k = 0; k < length; k++)
        value = (value ^ bytes[k]) * 0x100000001b3;
    return value;
}

size_t start_of(unsigned depth, uint64_t node) {
    size_t leaves = (size_t)1 << depth;
    return node < leaves ? 24 * (node - 2) : 24 * (leaves - 2) + 80 * (node - leaves);
}

size_t label_of(unsigned depth, uint64_t node) {
    return node < (uint64_t)1 << depth ? 8 : 64;
}

uint64_t owner(unsigned depth, size_t byte) {
    uint64_t node = 2;
    while (start_of(depth, node + 1) <= byte)
        node++;
    return node;
}
