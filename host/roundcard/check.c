// Checks every tag of a card, and lists the blocks that are refused.
#include "commands.h"
#include "json.h"
#include "map.h"
#include "output.h"
#include "picture.h"

#include <inttypes.h>
#include <stdio.h>
#include <stdlib.h>
#include <string.h>

// What every block was read for.
struct findings {
    struct survey survey;
    struct map map;
};

static void put_findings(const void *what) {
    const struct findings *findings = what;
    survey_json(&findings->survey);
    map_json(&findings->map);
}

// A card whose tags are all right, and where every block was read, what that found.
static int report(const struct request *request, uint64_t depth, const struct findings *findings) {
    uint64_t blocks = (uint64_t)1 << depth, nodes = 2 * blocks - 2;
    if (request->options[OPTION_JSON] != NULL) {
        json_open("check", 0);
        json_number("nodes", nodes);
        if (findings == NULL)
            json_number("blocks", blocks);
        else
            put_findings(findings);
        json_close();
        return finish_output(request);
    }
    printf("whole: the tags of all %" PRIu64 " nodes are right, over %" PRIu64 " blocks%s\n", nodes,
           blocks, findings == NULL ? "" : ", and each block is read");
    if (findings != NULL)
        map_print(&findings->map);
    return finish_output(request);
}

static int put_picture(const struct request *request, const struct anchor *anchor,
                       const struct card *card, const struct findings *findings) {
    size_t length = 0;
    char *image = picture_draw(&findings->survey, &findings->map, card->path, &length);
    if (image == NULL)
        return system_failure(request, "no memory for the picture");
    int status = output_put(request, request->options[OPTION_PICTURE], anchor, card,
                            (const uint8_t *)image, length);
    free(image);
    return status;
}

// The refusal, behind the list and the map where those are no part of its object.
static int report_refused(const struct request *request, struct situation *situation,
                          const struct findings *findings) {
    int printed = 0;
    if (request->options[OPTION_JSON] == NULL) {
        survey_print(&findings->survey);
        map_print(&findings->map);
        printed = finish_output(request);
    }
    situation->details = (struct details){put_findings, findings};
    int status = explain_refusal(request, situation);
    return printed == 0 ? status : printed;
}

// A check that is accepted, or refused for a tag, with what the reads of all blocks say.
static int check_all(const struct request *request, const struct anchor *anchor,
                     const struct card *card, struct situation *situation) {
    struct findings findings;
    int status = survey_take(request, situation, &findings.survey);
    if (status != 0)
        return status;
    map_make(&findings.map, &findings.survey);
    if (findings.survey.lowest != pat_node(situation->answer))
        status = failure(request, STATUS_LIBRARY,
                         "the library contradicts itself: a check answers %" PRIu64
                         ", and the lowest node at which a read is refused is %" PRIu64,
                         situation->answer, findings.survey.lowest);
    else if (request->options[OPTION_PICTURE] != NULL)
        status = put_picture(request, anchor, card, &findings);
    if (status == 0)
        status = situation->answer == 0 ? report(request, situation->depth, &findings)
                                        : report_refused(request, situation, &findings);
    survey_free(&findings.survey);
    return status;
}

// What a recovery would do for a check that is refused for a tag.
static enum recovery seek_recovery(const struct anchor *anchor, const struct card *card) {
    enum recovery found = NO_HELP;
    struct card recovered = card_copy(card);
    enum effect effect =
        recovered.bytes == NULL ? CHANGES_NOTHING : journal_effect(anchor, &recovered);
    if (effect == CHANGES)
        found = pat_check(anchor->bytes, anchor->length, recovered.bytes, recovered.length) ==
                        PAT_ACCEPTED
                    ? HELPS
                    : MAY_HELP;
    else if (effect == PASSED_OVER && anchor_root(anchor) != 0)
        found = MISSES_JOURNAL;
    free(recovered.bytes);
    return found;
}

static int check(const struct request *request, const struct anchor *anchor,
                 const struct card *card) {
    struct situation situation = situation_of(anchor, card);
    uint64_t answer = pat_check(anchor->bytes, anchor->length, card->bytes, card->length);
    situation.answer = answer;
    if (pat_refusal(answer) == PAT_REFUSED_TAG)
        situation.recovery = seek_recovery(anchor, card);
    bool all = request->options[OPTION_ALL] != NULL || request->options[OPTION_PICTURE] != NULL;
    bool of_tags =
        answer == 0 || (pat_refusal(answer) == PAT_REFUSED_TAG && possible_answer(&situation));
    if (all && of_tags)
        return check_all(request, anchor, card, &situation);
    return answer == 0 ? report(request, situation.depth, NULL)
                       : explain_refusal(request, &situation);
}

static int run_check(const struct request *request) {
    struct anchor anchor;
    struct card card;
    const char *picture = request->options[OPTION_PICTURE];
    if (picture != NULL && strcmp(picture, "-") == 0)
        return failure(request, STATUS_USAGE,
                       "--picture needs a file: the report goes to standard output");
    int status = anchor_open(request, &anchor, SHARED);
    if (status != 0)
        return status;
    status = card_open(request, &card, TO_READ);
    if (status == 0) {
        status = check(request, &anchor, &card);
        card_close(&card);
    }
    anchor_close(&anchor);
    return status;
}

static const char help[] =
    "usage: roundcard check [--all] [--picture FILE] [--json] ANCHOR CARD\n"
    "\n"
    "Checks the tag of every node on the card, and changes nothing.\n"
    "\n"
    "  --all           read every block too, list those that are refused, each run of them\n"
    "                  with the node at which it is refused, and draw a map of the card\n"
    "  --picture FILE  the same, and the map as an SVG image in a file, which is replaced\n"
    "                  whole or left as it is\n"
    "  --json          report as a JSON object\n"
    "\n"
    "The map has a character for each block, or for each run of blocks where there are\n"
    "more than 1024. It has colours on a terminal, unless NO_COLOR is set.\n"
    "\n"
    "Refused 5: the anchor file has not 40 bytes. 1: depth. 2: T or H. 3: card length.\n"
    "8: a wrong tag, the one of the lowest node. Status 70: the reads and the check do not\n"
    "agree.\n";

const struct command check_command = {
    .name = "check",
    .help = help,
    .options = {{"--all", OPTION_ALL, false}, {"--picture", OPTION_PICTURE, true}},
    .fewest_words = 2,
    .most_words = 2,
    .run = run_check,
};
