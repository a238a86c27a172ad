// What reads of every block of a card say.
#ifndef SURVEY_H
#define SURVEY_H

#include "refusal.h"

// Blocks next to each other that are refused at the same node.
struct run {
    uint64_t first, last, node;
    bool mends; // whether a write of the block mends it
};

struct survey {
    uint64_t blocks;  // of the card
    uint64_t refused; // of them
    uint64_t lowest;  // the lowest node that is named, 0 where all are accepted
    struct run *runs;
    size_t count;
};

// Reads all blocks, on a card that is not refused for its length. Gives 0, or the status of the
// error it reported.
int survey_take(const struct request *request, const struct situation *situation,
                struct survey *survey);

void survey_free(struct survey *survey);

// The list of the runs: as lines, and as names of a JSON object.
void survey_print(const struct survey *survey);
void survey_json(const struct survey *survey);

#endif
