// The engines of the example beside pat_write: random writes at random depths both ways, and all
// that they leave, byte for byte.
//   engines N SEED   N writes, in histories of up to 12, some with tags among them that come late
//                    or are not awaited, some behind a plan that is left unfinished; where
//                    something differs it says what and where, and the status is 1
//   engines refused  a split write on a spoiled card, which ends with the example's message
#define main example
#include "../engines.c"
#undef main

// Whether two buffers differ, and the first byte that does.
static bool differ(const char *what, const uint8_t *one, const uint8_t *other, size_t length) {
    size_t k = 0;
    if (memcmp(one, other, length) == 0)
        return false;
    while (one[k] == other[k])
        k++;
    fprintf(stderr, "FAILED: byte %zu of the %s is not as pat_write leaves it\n", k, what);
    return true;
}

// A formatted card of that depth, under that key.
static struct store make_store(uint64_t depth, const uint8_t *key) {
    struct store s = {.card_len = pat_card_bytes(depth)};
    s.card = malloc(s.card_len);
    if (s.card == NULL)
        exit(2);
    memcpy(s.anchor, key, PAT_KEY_BYTES);
    pat_put_number(s.anchor + PAT_ANCHOR_DEPTH, depth);
    must(pat_format(s.anchor, sizeof s.anchor, s.card, s.card_len), "the format of depth", depth);
    return s;
}

// Two stores under one key, and how the writes to them went.
struct pair {
    struct store split, plain;
    struct cipher cipher;
    uint64_t depth, state;
    unsigned long done, out_of_order, strays, left;
};

static void begin(struct pair *pair) {
    uint8_t key[PAT_KEY_BYTES];
    for (unsigned k = 0; k < sizeof key; k++)
        key[k] = (uint8_t)draw(&pair->state, 256);
    pair->depth = 1 + draw(&pair->state, PAT_MAX_DEPTH);
    pair->cipher = cipher_of(key);
    pair->split = make_store(pair->depth, key);
    pair->plain = make_store(pair->depth, key);
}

static void end(struct pair *pair) {
    free(pair->split.card);
    free(pair->plain.card);
}

// Puts a tag among those that come back, before a plan of that block is made: one of an earlier
// plan for a node that this one awaits, or one that this plan does not await.
static void stray(struct pair *pair, uint64_t index) {
    unsigned k = (unsigned)draw(&pair->state, PAT_MESSAGES(pair->depth));
    bool late = draw(&pair->state, 2) == 0;
    struct job job = {.plan = pair->split.plans + (late ? 0 : 1),
                      .node = late ? pat_message(pair->depth, index, k).node : 1};
    memset(job.tag, 0x5a, sizeof job.tag);
    give(&tags_back, &job);
    pair->strays++;
}

// A plan that is left unfinished. Beside it pat_write starts at the same H.
static void leave(struct pair *pair, uint64_t index, const uint8_t *block) {
    uint8_t *reserved = pair->plain.anchor + PAT_ANCHOR_RESERVED;
    leave_plan(&pair->split, &pair->cipher, index, block);
    pat_put_number(reserved, pat_get_number(reserved) + pair->depth);
    pair->left++;
}

// One write both ways, with any bytes in the range buffers before. False where they differ.
static bool write_both(struct pair *pair) {
    struct store *s = &pair->split, *plain = &pair->plain;
    uint64_t index = draw(&pair->state, (uint64_t)1 << pair->depth);
    uint8_t block[PAT_BLOCK_BYTES];
    for (unsigned k = 0; k < sizeof block; k++)
        block[k] = (uint8_t)draw(&pair->state, 256);
    for (unsigned k = 0; k < sizeof s->ranges; k++)
        s->ranges[k] = plain->ranges[k] = (uint8_t)draw(&pair->state, 256);
    if (draw(&pair->state, 4) == 0)
        leave(pair, index, block);
    must(pat_write(plain->anchor, sizeof plain->anchor, plain->card, plain->card_len, index, block,
                   sizeof block, plain->ranges, sizeof plain->ranges),
         "the write of block", index);
    while (draw(&pair->state, 3) == 0)
        stray(pair, index);
    struct work work = write_by_engines(s, &pair->cipher, index, block);
    bool wrong = differ("card", s->card, plain->card, s->card_len);
    wrong = differ("anchor", s->anchor, plain->anchor, sizeof s->anchor) || wrong;
    wrong = differ("anchor that is kept", s->kept, s->anchor, sizeof s->kept) || wrong;
    wrong = differ("range buffer", s->ranges, plain->ranges, sizeof s->ranges) || wrong;
    wrong = work.aes_calls + PAT_AES_PLAN(pair->depth) != PAT_AES_WRITE(pair->depth) || wrong;
    if (wrong)
        fprintf(stderr, "FAILED: write %lu, of block %llu at depth %u, %u AES calls of engines\n",
                pair->done, (unsigned long long)index, (unsigned)pair->depth, work.aes_calls);
    pair->out_of_order += work.out_of_order;
    pair->done++;
    return !wrong;
}

// The tags come out of order nearly always where there are many; a run in which they mostly do not
// tries too little.
static int compare(unsigned long count, uint64_t seed) {
    struct pair pair = {.state = 2 * seed + 1};
    bool right = true;
    while (right && pair.done < count) {
        begin(&pair);
        unsigned long last = pair.done + 1 + draw(&pair.state, 12);
        while (right && pair.done < last && pair.done < count)
            right = write_both(&pair);
        end(&pair);
    }
    if (!right)
        return 1;
    printf("%lu split writes as by pat_write; in %lu of them the tags came out of order\n",
           pair.done, pair.out_of_order);
    printf("%lu tags among them that were late or not awaited, and %lu plans left unfinished\n",
           pair.strays, pair.left);
    if (pair.out_of_order >= count / 2 && pair.strays >= count / 8 && pair.left >= count / 8)
        return 0;
    fputs("FAILED: the tags came in order too often, or too few were late, or plans left\n",
          stderr);
    return 1;
}

// The plan is refused. Never comes back.
static void be_refused(void) {
    static const uint8_t key[PAT_KEY_BYTES], block[PAT_BLOCK_BYTES];
    struct store s = make_store(2, key);
    struct cipher cipher = cipher_of(key);
    s.card[0] ^= 1;
    write_by_engines(&s, &cipher, 0, block);
}

int main(int count, char **words) {
    unsigned long writes = count == 3 ? strtoul(words[1], NULL, 10) : 0;
    int status = 2;
    switch_on();
    if (count == 2)
        be_refused();
    if (writes > 0)
        status = compare(writes, strtoull(words[2], NULL, 10));
    switch_off();
    return status;
}
