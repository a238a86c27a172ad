// A map of a card: a cell for each block, or for each run of blocks where there are many.
#ifndef MAP_H
#define MAP_H

#include "survey.h"

enum { MAP_COLUMNS = 64, MAP_MOST_CELLS = 1024 };

enum cell { CELL_ACCEPTED, CELL_MIXED, CELL_REFUSED, CELL_KINDS };

struct map {
    uint64_t span; // the blocks of a cell
    size_t cells;
    enum cell kinds[MAP_MOST_CELLS];
    bool present[CELL_KINDS]; // which kinds there are
};

void map_make(struct map *map, const struct survey *survey);

// What a kind of cell says.
const char *map_meaning(const struct map *map, enum cell kind);

// The map as lines, in colours where standard output is a terminal that has them, and as a name of
// a JSON object.
void map_print(const struct map *map);
void map_json(const struct map *map);

#endif
