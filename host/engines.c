// A box with four cipher engines, here POSIX threads. A write is planned, the engines make its
// tags, each in its own time, and each tag is put on the card as it comes. Some rounds are written
// so, one plan is left unfinished, and the last round is read back.
#define _POSIX_C_SOURCE 200809L
#include <pat.h>

#include <pthread.h>
#include <stdbool.h>
#include <stdio.h>
#include <stdlib.h>
#include <string.h>
#include <time.h>

enum { ENGINES = 4, AES_BLOCK = 16, ROUNDS = 10, MOST_JOBS = 8 * PAT_MAX_DEPTH };

// What an engine has in hardware: AES-128 of FIPS 197 and the CMAC of RFC 4493, under one key.
struct cipher {
    uint8_t keys[(ROUNDS + 1) * AES_BLOCK];
    uint8_t subkeys[2][AES_BLOCK]; // K1 and K2
};

static uint8_t substitution[256];

static uint8_t twice(uint8_t x) {
    return (uint8_t)(x << 1 ^ (x >> 7) * 0x1b);
}

static uint8_t times(uint8_t x, uint8_t y) {
    uint8_t product = 0;
    for (; y != 0; y >>= 1, x = twice(x))
        if (y & 1)
            product ^= x;
    return product;
}

// The inverse in the field, which is the power 254, and the affine map.
static void make_substitution(void) {
    for (unsigned x = 0; x < 256; x++) {
        uint8_t inverse = 1;
        for (unsigned k = 0; k < 254; k++)
            inverse = times(inverse, (uint8_t)x);
        unsigned turned = inverse * 0x101u;
        unsigned sum = turned ^ turned >> 4 ^ turned >> 5 ^ turned >> 6 ^ turned >> 7;
        substitution[x] = (uint8_t)(sum ^ 0x63);
    }
}

static void add(uint8_t *block, const uint8_t *bytes, size_t length) {
    for (size_t k = 0; k < length; k++)
        block[k] ^= bytes[k];
}

static void encrypt(const struct cipher *cipher, uint8_t *state) {
    add(state, cipher->keys, AES_BLOCK);
    for (unsigned number = 1; number <= ROUNDS; number++) {
        uint8_t moved[AES_BLOCK];
        for (unsigned k = 0; k < AES_BLOCK; k++)
            moved[k] = substitution[state[(k + 4 * (k % 4)) % AES_BLOCK]];
        for (unsigned k = 0; k < AES_BLOCK; k++) {
            const uint8_t *column = moved + k / 4 * 4;
            uint8_t next = column[(k + 1) % 4];
            uint8_t others = next ^ column[(k + 2) % 4] ^ column[(k + 3) % 4];
            state[k] = number == ROUNDS ? moved[k] : twice(moved[k] ^ next) ^ others;
        }
        add(state, cipher->keys + AES_BLOCK * number, AES_BLOCK);
    }
}

// Twice a block, in the field of the subkeys.
static void double_block(uint8_t *to, const uint8_t *from) {
    for (unsigned k = 0; k < AES_BLOCK; k++)
        to[k] = (uint8_t)(from[k] << 1 | (k + 1 < AES_BLOCK ? from[k + 1] >> 7 : 0));
    to[AES_BLOCK - 1] ^= (uint8_t)((from[0] >> 7) * 0x87);
}

static struct cipher cipher_of(const uint8_t *key) {
    struct cipher cipher;
    uint8_t *keys = cipher.keys, constant = 1, zeros[AES_BLOCK] = {0};
    memcpy(keys, key, PAT_KEY_BYTES);
    for (unsigned k = PAT_KEY_BYTES; k < sizeof cipher.keys; k++) {
        keys[k] = keys[k - 16] ^ keys[k - 4];
        if (k % 16 < 4) // the first word: the last one turned and substituted
            keys[k] = keys[k - 16] ^ substitution[keys[k - (k % 4 == 3 ? 7 : 3)]];
        if (k % 16 == 0) {
            keys[k] ^= constant;
            constant = twice(constant);
        }
    }
    encrypt(&cipher, zeros);
    double_block(cipher.subkeys[0], zeros);
    double_block(cipher.subkeys[1], cipher.subkeys[0]);
    return cipher;
}

// Gives the number of AES calls.
static unsigned make_tag(const struct cipher *cipher, const uint8_t *message, size_t length,
                         uint8_t tag[PAT_TAG_BYTES]) {
    unsigned calls = 1;
    memset(tag, 0, PAT_TAG_BYTES);
    for (; length > AES_BLOCK; message += AES_BLOCK, length -= AES_BLOCK, calls++) {
        add(tag, message, AES_BLOCK);
        encrypt(cipher, tag);
    }
    add(tag, message, length);
    if (length < AES_BLOCK)
        tag[length] ^= 0x80;
    add(tag, cipher->subkeys[length < AES_BLOCK], AES_BLOCK);
    encrypt(cipher, tag);
    return calls;
}

// Examples 2 and 3 of RFC 4493, section 4: a last block that is whole, and one that is not.
static bool is_right(void) {
    static const uint8_t key[] = {0x2b, 0x7e, 0x15, 0x16, 0x28, 0xae, 0xd2, 0xa6,
                                  0xab, 0xf7, 0x15, 0x88, 0x09, 0xcf, 0x4f, 0x3c};
    static const uint8_t message[] = {0x6b, 0xc1, 0xbe, 0xe2, 0x2e, 0x40, 0x9f, 0x96, 0xe9, 0x3d,
                                      0x7e, 0x11, 0x73, 0x93, 0x17, 0x2a, 0xae, 0x2d, 0x8a, 0x57,
                                      0x1e, 0x03, 0xac, 0x9c, 0x9e, 0xb7, 0x6f, 0xac, 0x45, 0xaf,
                                      0x8e, 0x51, 0x30, 0xc8, 0x1c, 0x46, 0xa3, 0x5c, 0xe4, 0x11};
    static const uint8_t tags[2][PAT_TAG_BYTES] = {{0x07, 0x0a, 0x16, 0xb4, 0x6b, 0x4d, 0x41, 0x44,
                                                    0xf7, 0x9b, 0xdd, 0x9d, 0xd0, 0x4a, 0x28, 0x7c},
                                                   {0xdf, 0xa6, 0x67, 0x47, 0xde, 0x9a, 0xe6, 0x30,
                                                    0x30, 0xca, 0x32, 0x61, 0x14, 0x97, 0xc8,
                                                    0x27}};
    uint8_t two[PAT_TAG_BYTES], three[PAT_TAG_BYTES];
    struct cipher cipher = cipher_of(key);
    make_tag(&cipher, message, 16, two);
    make_tag(&cipher, message, 40, three);
    return memcmp(two, tags[0], sizeof two) == 0 && memcmp(three, tags[1], sizeof three) == 0;
}

// A message on its way to an engine, and its tag on the way back, which is known by its plan and
// its node. The engine has the message's bytes: those of a plan that is left may go before it reads
// them. Without a cipher: the engine stops.
struct job {
    const struct cipher *cipher;
    uint8_t message[PAT_BLOCK_BYTES + 9];
    size_t length;
    uint64_t plan, node;
    uint8_t tag[PAT_TAG_BYTES];
    unsigned aes_calls;
};

// It has room for the jobs of a plan, and for three times as many that come late.
struct queue {
    pthread_mutex_t lock;
    pthread_cond_t filled;
    struct job jobs[MOST_JOBS];
    size_t first, count;
};

static struct queue messages_out = {.lock = PTHREAD_MUTEX_INITIALIZER,
                                    .filled = PTHREAD_COND_INITIALIZER};
static struct queue tags_back = {.lock = PTHREAD_MUTEX_INITIALIZER,
                                 .filled = PTHREAD_COND_INITIALIZER};
static pthread_t engines[ENGINES];

static void give(struct queue *queue, const struct job *job) {
    pthread_mutex_lock(&queue->lock);
    if (queue->count == MOST_JOBS) {
        fputs("engines: more jobs than a queue has room for\n", stderr);
        abort();
    }
    queue->jobs[(queue->first + queue->count++) % MOST_JOBS] = *job;
    pthread_cond_signal(&queue->filled);
    pthread_mutex_unlock(&queue->lock);
}

static struct job take(struct queue *queue) {
    pthread_mutex_lock(&queue->lock);
    while (queue->count == 0)
        pthread_cond_wait(&queue->filled, &queue->lock);
    struct job job = queue->jobs[queue->first];
    queue->first = (queue->first + 1) % MOST_JOBS;
    queue->count--;
    pthread_mutex_unlock(&queue->lock);
    return job;
}

static uint64_t draw(uint64_t *state, uint64_t below) {
    *state ^= *state << 13;
    *state ^= *state >> 7;
    *state ^= *state << 17;
    return *state % below;
}

static void *run_engine(void *seed) {
    uint64_t state = *(const uint64_t *)seed;
    for (;;) {
        struct job job = take(&messages_out);
        if (job.cipher == NULL)
            return NULL;
        job.aes_calls = make_tag(job.cipher, job.message, job.length, job.tag);
        struct timespec own_time = {0, (long)draw(&state, 100000)};
        nanosleep(&own_time, NULL);
        give(&tags_back, &job);
    }
}

// Makes the engines ready, once their CMAC is seen to be right.
static void switch_on(void) {
    static uint64_t seeds[ENGINES] = {1, 2, 3, 4};
    make_substitution();
    bool ready = is_right();
    for (unsigned k = 0; k < ENGINES; k++)
        ready = ready && pthread_create(&engines[k], NULL, run_engine, &seeds[k]) == 0;
    if (ready)
        return;
    fputs("engines: no threads, or a CMAC that is not that of RFC 4493\n", stderr);
    exit(1);
}

static void switch_off(void) {
    static const struct job stop;
    for (unsigned k = 0; k < ENGINES; k++)
        give(&messages_out, &stop);
    for (unsigned k = 0; k < ENGINES; k++)
        pthread_join(engines[k], NULL);
}

// What the host has: a card in memory, its anchor, the anchor that the chip keeps when the power is
// gone, the ranges of the last write, and how many plans it made.
struct store {
    uint8_t anchor[PAT_ANCHOR_BYTES], kept[PAT_ANCHOR_BYTES], ranges[PAT_MAX_RANGE_BYTES];
    uint8_t *card;
    size_t card_len;
    uint64_t plans;
};

// What the engines did for one write.
struct work {
    unsigned aes_calls;
    bool out_of_order;
};

// Ends the program where a call is refused. Of the plan nothing was stored but H, so that the card
// outside is still the one of before and goes with the anchor that is kept.
static void must(uint64_t answer, const char *what, uint64_t number) {
    if (answer == PAT_ACCEPTED)
        return;
    fprintf(stderr, "engines: %s %llu is refused, %u: %s", what, (unsigned long long)number,
            pat_refusal(answer), pat_refusal_text(answer));
    if (pat_node(answer) != 0)
        fprintf(stderr, ", that of node %llu", (unsigned long long)pat_node(answer));
    fputc('\n', stderr);
    exit(1);
}

static void keep_anchor(struct store *s) {
    memcpy(s->kept, s->anchor, sizeof s->kept);
}

// Plans a write and sends its messages to the engines, once the anchor with H raised is kept: from
// then on tags with these nonces may be seen.
static void send_plan(struct store *s, const struct cipher *cipher, uint64_t index,
                      const uint8_t block[PAT_BLOCK_BYTES], uint8_t plan[PAT_PLAN_BYTES]) {
    uint8_t messages[PAT_MESSAGES_BYTES];
    uint64_t depth = pat_get_number(s->anchor + PAT_ANCHOR_DEPTH);
    must(pat_plan(s->anchor, sizeof s->anchor, s->card, s->card_len, index, block, PAT_BLOCK_BYTES,
                  s->ranges, sizeof s->ranges, plan, PAT_PLAN_BYTES, messages, sizeof messages),
         "the plan of block", index);
    keep_anchor(s);
    s->plans++;
    for (unsigned k = 0; k < PAT_MESSAGES(depth); k++) {
        struct pat_message m = pat_message(depth, index, k);
        struct job job = {.cipher = cipher, .length = m.length, .plan = s->plans, .node = m.node};
        memcpy(job.message, messages + m.start, m.length);
        give(&messages_out, &job);
    }
}

// The split write. Behind the last put the anchor is kept; the ranges are to be stored now, as
// after pat_write. It waits for every tag: a host whose engines can fail leaves the plan unfinished
// after a time.
static struct work write_by_engines(struct store *s, const struct cipher *cipher, uint64_t index,
                                    const uint8_t block[PAT_BLOCK_BYTES]) {
    uint8_t plan[PAT_PLAN_BYTES];
    uint64_t depth = pat_get_number(s->anchor + PAT_ANCHOR_DEPTH), last = 0;
    struct work work = {0, false};
    send_plan(s, cipher, index, block, plan);
    for (unsigned put = 0; put < PAT_MESSAGES(depth);) {
        struct job job = take(&tags_back);
        if (job.plan != s->plans)
            continue; // late: its plan was left
        uint64_t answer = pat_put_tag(s->anchor, sizeof s->anchor, plan, sizeof plan, s->card,
                                      s->card_len, job.node, job.tag, sizeof job.tag);
        if (answer == PAT_REFUSED_NOT_AWAITED)
            continue; // an engine answered twice
        must(answer, "the tag of node", job.node);
        put++;
        work.aes_calls += job.aes_calls;
        work.out_of_order = work.out_of_order || job.node < last;
        last = job.node;
    }
    keep_anchor(s);
    return work;
}

// A plan that is left unfinished: no tag is waited for. The host goes on with the anchor that is
// kept, in which H is raised, and with the card as it was. The tags come late.
static void leave_plan(struct store *s, const struct cipher *cipher, uint64_t index,
                       const uint8_t block[PAT_BLOCK_BYTES]) {
    uint8_t plan[PAT_PLAN_BYTES], *before = malloc(s->card_len);
    if (before == NULL)
        exit(2);
    memcpy(before, s->card, s->card_len);
    send_plan(s, cipher, index, block, plan);
    memcpy(s->anchor, s->kept, sizeof s->anchor);
    memcpy(s->card, before, s->card_len);
    free(before);
}

static void tell(const struct store *s, uint64_t index, unsigned aes_calls) {
    uint64_t depth = pat_get_number(s->anchor + PAT_ANCHOR_DEPTH);
    printf("block %u: %u tags from %d engines, %u AES calls there and %u in the plan\n"
           "    the anchor is kept with T = %u; store of the card",
           (unsigned)index, (unsigned)PAT_MESSAGES(depth), ENGINES, aes_calls,
           (unsigned)PAT_AES_PLAN(depth), (unsigned)pat_get_number(s->kept + PAT_ANCHOR_ROOT));
    for (size_t r = 0; r < PAT_RANGES(depth); r++)
        printf(" %u+%u", (unsigned)pat_range_start(s->ranges, r),
               (unsigned)pat_range_length(s->ranges, r));
    putchar('\n');
}

static void tell_left(const struct store *s, uint64_t index) {
    printf("block %u: the plan is left unfinished; the anchor is kept with T = %u and H = %u\n",
           (unsigned)index, (unsigned)pat_get_number(s->kept + PAT_ANCHOR_ROOT),
           (unsigned)pat_get_number(s->kept + PAT_ANCHOR_RESERVED));
}

static void write_rounds(void) {
    enum { DEPTH = 3 };
    static const uint64_t blocks[] = {5, 2, 5};
    static uint8_t card[PAT_CARD_BYTES(DEPTH)];
    struct store s = {.anchor = "sixteen byte key", .card = card, .card_len = sizeof card};
    struct cipher cipher = cipher_of(s.anchor); // a product draws its key
    uint8_t block[PAT_BLOCK_BYTES] = "van 7: round 12", buffer[PAT_BLOCK_BYTES];
    pat_put_number(s.anchor + PAT_ANCHOR_DEPTH, DEPTH);
    must(pat_format(s.anchor, sizeof s.anchor, card, sizeof card), "a card of depth", DEPTH);
    for (unsigned k = 0; k < 3; k++, block[4]++) {
        if (k == 2) {
            leave_plan(&s, &cipher, blocks[k], block);
            tell_left(&s, blocks[k]);
        }
        struct work work = write_by_engines(&s, &cipher, blocks[k], block);
        tell(&s, blocks[k], work.aes_calls);
    }
    must(pat_read(s.anchor, sizeof s.anchor, card, sizeof card, 5, buffer, sizeof buffer),
         "the read of block", 5);
    printf("block 5: %s\n", (const char *)buffer);
}

int main(void) {
    switch_on();
    write_rounds();
    switch_off();
    return 0;
}
