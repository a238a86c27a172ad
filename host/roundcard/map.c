#include "map.h"
#include "json.h"

#include <inttypes.h>
#include <stdio.h>
#include <stdlib.h>
#include <string.h>
#include <unistd.h>

static const char marks[CELL_KINDS] = {'.', '+', '#'};
static const char *const colours[CELL_KINDS] = {"\033[32m", "\033[33m", "\033[1;31m"};

void map_make(struct map *map, const struct survey *survey) {
    uint64_t refused[MAP_MOST_CELLS] = {0};
    *map = (struct map){.span =
                            survey->blocks <= MAP_MOST_CELLS ? 1 : survey->blocks / MAP_MOST_CELLS};
    map->cells = (size_t)(survey->blocks / map->span);
    for (size_t k = 0; k < survey->count; k++)
        for (uint64_t block = survey->runs[k].first; block <= survey->runs[k].last; block++)
            refused[block / map->span]++;
    for (size_t k = 0; k < map->cells; k++) {
        map->kinds[k] = refused[k] == 0           ? CELL_ACCEPTED
                        : refused[k] == map->span ? CELL_REFUSED
                                                  : CELL_MIXED;
        map->present[map->kinds[k]] = true;
    }
}

const char *map_meaning(const struct map *map, enum cell kind) {
    if (kind == CELL_MIXED)
        return "some refused";
    if (kind == CELL_REFUSED)
        return map->span == 1 ? "refused" : "all refused";
    return "accepted";
}

// Whether colours are wanted where the map goes.
static bool coloured(void) {
    const char *unwanted = getenv("NO_COLOR"), *terminal = getenv("TERM");
    return isatty(STDOUT_FILENO) && (unwanted == NULL || *unwanted == '\0') && terminal != NULL &&
           *terminal != '\0' && strcmp(terminal, "dumb") != 0;
}

// Marks of one kind beside each other.
static void put_marks(enum cell kind, size_t count, bool in_colour) {
    if (in_colour)
        fputs(colours[kind], stdout);
    for (; count > 0; count--)
        putchar(marks[kind]);
    if (in_colour)
        fputs("\033[0m", stdout);
}

static void put_row(const struct map *map, size_t start, bool in_colour) {
    size_t end = start + MAP_COLUMNS < map->cells ? start + MAP_COLUMNS : map->cells;
    for (size_t k = start; k < end;) {
        size_t count = 1;
        while (k + count < end && map->kinds[k + count] == map->kinds[k])
            count++;
        put_marks(map->kinds[k], count, in_colour);
        k += count;
    }
}

void map_print(const struct map *map) {
    bool in_colour = coloured();
    if (map->span == 1)
        printf("map, a character for each block:");
    else
        printf("map, a character for each %" PRIu64 " blocks:", map->span);
    const char *between = " ";
    for (int kind = 0; kind < CELL_KINDS; kind++)
        if (map->present[kind]) {
            fputs(between, stdout);
            put_marks((enum cell)kind, 1, in_colour);
            printf(" %s", map_meaning(map, (enum cell)kind));
            between = ", ";
        }
    putchar('\n');
    for (size_t k = 0; k < map->cells; k += MAP_COLUMNS) {
        printf("%7" PRIu64 "  ", k * map->span);
        put_row(map, k, in_colour);
        putchar('\n');
    }
}

void map_json(const struct map *map) {
    json_number("blocks_per_character", map->span);
    json_list_open("map");
    for (size_t k = 0; k < map->cells; k += MAP_COLUMNS) {
        printf("%s\"", k == 0 ? "" : ", ");
        put_row(map, k, false);
        putchar('"');
    }
    json_list_close();
}
