#include "survey.h"
#include "json.h"
#include "mend.h"

#include <inttypes.h>
#include <stdio.h>
#include <stdlib.h>

// Adds a block that is refused at a node.
static void add(struct survey *survey, uint64_t index, uint64_t node) {
    struct run *last = survey->count == 0 ? NULL : &survey->runs[survey->count - 1];
    if (last != NULL && last->node == node && last->last + 1 == index)
        last->last = index;
    else
        survey->runs[survey->count++] = (struct run){.first = index, .last = index, .node = node};
    if (survey->lowest == 0 || node < survey->lowest)
        survey->lowest = node;
    survey->refused++;
}

static int read_all(const struct request *request, const struct situation *s,
                    struct survey *survey) {
    struct situation one = *s;
    for (uint64_t index = 0; index < survey->blocks; index++) {
        uint8_t block[PAT_BLOCK_BYTES];
        one.answer =
            pat_read(s->anchor, s->anchor_len, s->card, s->card_len, index, block, sizeof block);
        if (one.answer == PAT_ACCEPTED)
            continue;
        if (pat_refusal(one.answer) != PAT_REFUSED_TAG || !possible_answer(&one))
            return failure(request, STATUS_LIBRARY, "the library gave an unknown answer, %" PRIu64,
                           one.answer);
        add(survey, index, pat_node(one.answer));
    }
    return 0;
}

int survey_take(const struct request *request, const struct situation *s, struct survey *survey) {
    *survey = (struct survey){.blocks = (uint64_t)1 << s->depth};
    survey->runs = malloc(survey->blocks * sizeof *survey->runs);
    if (survey->runs == NULL)
        return system_failure(request, "no memory for the list of blocks");
    int status = read_all(request, s, survey);
    for (size_t k = 0; status == 0 && k < survey->count; k++)
        survey->runs[k].mends =
            survey->runs[k].node >> s->depth != 0 && write_refused_at(s, survey->runs[k].node) == 0;
    if (status != 0)
        survey_free(survey);
    return status;
}

void survey_free(struct survey *survey) {
    free(survey->runs);
}

void survey_print(const struct survey *survey) {
    printf("refused: %" PRIu64 " of %" PRIu64 " blocks, in %zu run%s\n", survey->refused,
           survey->blocks, survey->count, survey->count == 1 ? "" : "s");
    for (size_t k = 0; k < survey->count; k++) {
        const struct run *run = &survey->runs[k];
        char blocks[64];
        if (run->first == run->last)
            snprintf(blocks, sizeof blocks, "block %" PRIu64, run->first);
        else
            snprintf(blocks, sizeof blocks, "blocks %" PRIu64 " to %" PRIu64, run->first,
                     run->last);
        printf("  %-22s  at node %" PRIu64 "%s\n", blocks, run->node,
               run->mends ? "; writing it again mends it" : "");
    }
}

void survey_json(const struct survey *survey) {
    json_number("blocks", survey->blocks);
    json_number("refused_blocks", survey->refused);
    json_list_open("runs");
    for (size_t k = 0; k < survey->count; k++) {
        const struct run *run = &survey->runs[k];
        printf("%s{\"first\": %" PRIu64 ", \"last\": %" PRIu64 ", \"node\": %" PRIu64
               ", \"write_mends\": %s}",
               k == 0 ? "" : ", ", run->first, run->last, run->node, run->mends ? "true" : "false");
    }
    json_list_close();
}
