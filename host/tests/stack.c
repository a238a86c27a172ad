// How much stack each call needs, measured on a painted one, against what the header promises.
#include "pat.h"

#include <stdbool.h>
#include <stdio.h>
#include <stdlib.h>
#include <string.h>
#include <ucontext.h>

// The promise may be rounded up, but not to more than this many times what is needed.
enum { ROOM = 16 * PAT_STACK_BYTES, LARGEST_ROUNDING = 4 };

// A call, and what makes ready for it, if anything does.
struct measured {
    const char *name;
    uint64_t (*run)(void);
    uint64_t (*prepare)(void);
};

static _Alignas(16) uint8_t stack[ROOM];
static uint8_t anchor[PAT_ANCHOR_BYTES], card[PAT_CARD_BYTES(PAT_MAX_DEPTH)];
static uint8_t block[PAT_BLOCK_BYTES], ranges[PAT_MAX_RANGE_BYTES];
static uint8_t raised[PAT_ANCHOR_BYTES], journal[PAT_MAX_JOURNAL_BYTES];
static uint8_t plan_bytes[PAT_PLAN_BYTES], messages[PAT_MESSAGES_BYTES], tag[PAT_TAG_BYTES];
static uint64_t depth, answer;
static size_t card_len;

static const struct measured *current;
static const uint8_t *top;
static ucontext_t outside, inside;

static uint64_t nothing(void) {
    return PAT_ACCEPTED;
}

static uint64_t format(void) {
    return pat_format(anchor, sizeof anchor, card, card_len);
}

static uint64_t read(void) {
    return pat_read(anchor, sizeof anchor, card, card_len, 1, block, sizeof block);
}

static uint64_t write(void) {
    return pat_write(anchor, sizeof anchor, card, card_len, 1, block, sizeof block, ranges,
                     PAT_RANGE_BYTES(depth));
}

static uint64_t write_journalled(void) {
    return pat_write_journalled(anchor, sizeof anchor, raised, sizeof raised, card, card_len, 1,
                                block, sizeof block, ranges, PAT_RANGE_BYTES(depth), journal,
                                PAT_JOURNAL_BYTES(depth));
}

// Of a journal that is applied once write_journalled was called.
static uint64_t recover(void) {
    return pat_recover(anchor, sizeof anchor, card, card_len, journal, PAT_JOURNAL_BYTES(depth));
}

static uint64_t check(void) {
    return pat_check(anchor, sizeof anchor, card, card_len);
}

static uint64_t wipe(void) {
    return pat_wipe(anchor, sizeof anchor, card, card_len);
}

static uint64_t write_in_place(void) {
    static struct pat_anchor own;
    pat_anchor_from_bytes(&own, anchor);
    uint64_t given = pat_write_in_place(&own, card, card_len, 1, block, sizeof block, ranges,
                                        PAT_RANGE_BYTES(depth));
    pat_anchor_to_bytes(&own, anchor);
    return given;
}

// Needs a card as a format leaves it: the plan before this one was not finished.
static uint64_t plan(void) {
    return pat_plan(anchor, sizeof anchor, card, card_len, 1, block, sizeof block, ranges,
                    PAT_RANGE_BYTES(depth), plan_bytes, sizeof plan_bytes, messages,
                    sizeof messages);
}

static uint64_t plan_anew(void) {
    return format() == PAT_ACCEPTED ? plan() : PAT_REFUSED_TAG;
}

// A plan that awaits the tag of node 2 alone.
static uint64_t plan_one(void) {
    uint64_t first = plan_anew();
    pat_put_number(plan_bytes + PAT_PLAN_FILLED, UINT64_MAX - 1);
    return first;
}

static uint64_t put_tag(void) {
    return pat_put_tag(anchor, sizeof anchor, plan_bytes, sizeof plan_bytes, card, card_len, 2, tag,
                       sizeof tag);
}

// Runs on the painted stack. What lies above its frame is not the call's.
static void on_stack(void) {
    top = __builtin_frame_address(0);
    answer = current->run();
}

// The bytes below the frame that are no longer as they were painted.
static size_t touched(uint8_t paint) {
    memset(stack, paint, sizeof stack);
    getcontext(&inside);
    inside.uc_stack.ss_sp = stack;
    inside.uc_stack.ss_size = sizeof stack;
    inside.uc_link = &outside;
    makecontext(&inside, on_stack, 0);
    swapcontext(&outside, &inside);
    const uint8_t *lowest = stack;
    while (lowest < top && *lowest == paint)
        lowest++;
    return (size_t)(top - lowest);
}

// The larger of two measurements: a byte that happens to be as painted is not so twice.
static size_t measure(const struct measured *what) {
    current = what;
    size_t need = 0;
    for (unsigned k = 0; k < 2; k++) {
        if (what->prepare != NULL && what->prepare() != PAT_ACCEPTED) {
            fprintf(stderr, "FAILED: nothing is ready for %s\n", what->name);
            exit(1);
        }
        size_t once = touched(k == 0 ? 0xa5 : 0x5a);
        need = once > need ? once : need;
        if (answer != PAT_ACCEPTED) {
            fprintf(stderr, "FAILED: %s at depth %u: %s\n", what->name, (unsigned)depth,
                    pat_refusal_text(answer));
            exit(1);
        }
    }
    return need;
}

// The most that a call needs at this depth.
static size_t measure_all(uint64_t new_depth) {
    static const struct measured calls[] = {{"pat_format", format, NULL},
                                            {"pat_read", read, NULL},
                                            {"pat_write", write, NULL},
                                            {"pat_check", check, NULL},
                                            {"pat_wipe", wipe, NULL},
                                            {"pat_write_in_place", write_in_place, NULL},
                                            {"pat_write_journalled", write_journalled, NULL},
                                            {"pat_recover", recover, write_journalled},
                                            {"pat_plan", plan, format},
                                            {"pat_put_tag", put_tag, plan_anew},
                                            {"pat_put_tag, of the last tag,", put_tag, plan_one}};
    size_t most = 0;
    depth = new_depth;
    card_len = pat_card_bytes(depth);
    pat_put_number(anchor + PAT_ANCHOR_DEPTH, depth);
    for (size_t k = 0; k < sizeof calls / sizeof *calls; k++) {
        size_t need = measure(&calls[k]);
        printf("%5zu bytes of stack: %s at depth %u\n", need, calls[k].name, (unsigned)depth);
        most = need > most ? need : most;
    }
    return most;
}

int main(void) {
    static const struct measured empty = {"nothing", nothing, NULL};
    size_t least = measure_all(1), most = measure_all(PAT_MAX_DEPTH);
    most = least > most ? least : most;
    if (measure(&empty) > 256) {
        fprintf(stderr, "FAILED: the measurement itself needs %zu bytes\n", measure(&empty));
        return 1;
    }
    if (most > PAT_STACK_BYTES || PAT_STACK_BYTES > LARGEST_ROUNDING * most) {
        fprintf(stderr, "FAILED: a call needs %zu bytes of stack, and PAT_STACK_BYTES is %d\n",
                most, PAT_STACK_BYTES);
        return 1;
    }
    printf("%5zu bytes at most, and the header promises %d\n", most, PAT_STACK_BYTES);
    return 0;
}
