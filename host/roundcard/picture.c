#include "picture.h"
#include "text.h"

#include <inttypes.h>
#include <stdio.h>
#include <stdlib.h>
#include <string.h>

// Sizes in pixels. A cell leaves a gap to the next one.
enum { CELL = 12, GAP = 2, LEFT = 64, TOP = 64, LEGEND = 44, RIGHT = 24, LEAST_WIDTH = 420 };

// The runs that the description has in words.
enum { MOST_RUNS_TOLD = 16 };

// Blue and red that people who do not see red or green can tell apart, and an outline besides.
static const char style[] = "<style>\n"
                            "text { font: 12px sans-serif; fill: #222 }\n"
                            ".title { font: bold 16px sans-serif }\n"
                            ".number { font-size: 10px; text-anchor: end }\n"
                            ".k0 { fill: #a6c8e8 }\n"
                            ".k1 { fill: #f0a030; stroke: #7a4a00 }\n"
                            ".k2 { fill: #c81e1e; stroke: #5a0000 }\n"
                            "</style>\n";

// The name of a file, as messages show it, in XML.
static void put_name(FILE *out, const char *name) {
    char shown[LONGEST_SHOWN];
    escape(shown, sizeof shown, name);
    for (const char *c = shown; *c != '\0'; c++)
        if (*c == '<' || *c == '&' || *c == '>')
            fprintf(out, "&#%d;", *c);
        else
            fputc(*c, out);
}

static void put_blocks(FILE *out, uint64_t first, uint64_t last) {
    if (first == last)
        fprintf(out, "block %" PRIu64, first);
    else
        fprintf(out, "blocks %" PRIu64 " to %" PRIu64, first, last);
}

// What somebody hears who does not see the image.
static void put_description(FILE *out, const struct survey *survey) {
    fputs("<desc id=\"desc\">", out);
    for (size_t k = 0; k < survey->count && k < MOST_RUNS_TOLD; k++) {
        fputs(k == 0 ? "Refused: " : "; ", out);
        put_blocks(out, survey->runs[k].first, survey->runs[k].last);
        fprintf(out, " at node %" PRIu64, survey->runs[k].node);
    }
    if (survey->count > MOST_RUNS_TOLD)
        fprintf(out, "; and %zu runs more", survey->count - MOST_RUNS_TOLD);
    fputs(survey->count == 0 ? "All blocks are accepted.</desc>\n" : ".</desc>\n", out);
}

static void put_cell(FILE *out, const struct map *map, size_t k) {
    uint64_t first = k * map->span;
    fprintf(out, "<rect class=\"k%d\" x=\"%zu\" y=\"%zu\" width=\"%d\" height=\"%d\"><title>",
            map->kinds[k], LEFT + k % MAP_COLUMNS * CELL, TOP + k / MAP_COLUMNS * CELL, CELL - GAP,
            CELL - GAP);
    put_blocks(out, first, first + map->span - 1);
    fprintf(out, ": %s</title></rect>\n", map_meaning(map, map->kinds[k]));
}

static void put_cells(FILE *out, const struct map *map) {
    for (size_t k = 0; k < map->cells; k++) {
        if (k % MAP_COLUMNS == 0)
            fprintf(out, "<text class=\"number\" x=\"%d\" y=\"%zu\">%" PRIu64 "</text>\n", LEFT - 8,
                    TOP + k / MAP_COLUMNS * CELL + CELL - GAP, k * map->span);
        put_cell(out, map, k);
    }
}

static void put_legend(FILE *out, const struct map *map, size_t y) {
    int x = LEFT;
    for (int kind = 0; kind < CELL_KINDS; kind++)
        if (map->present[kind]) {
            fprintf(out, "<rect class=\"k%d\" x=\"%d\" y=\"%zu\" width=\"%d\" height=\"%d\"/>",
                    kind, x, y, CELL - GAP, CELL - GAP);
            fprintf(out, "<text x=\"%d\" y=\"%zu\">%s</text>\n", x + CELL + 4, y + CELL - GAP,
                    map_meaning(map, (enum cell)kind));
            x += 112;
        }
}

static void draw(FILE *out, const struct survey *survey, const struct map *map, const char *card) {
    size_t columns = map->cells < MAP_COLUMNS ? map->cells : MAP_COLUMNS;
    size_t rows = (map->cells + MAP_COLUMNS - 1) / MAP_COLUMNS;
    size_t width = LEFT + columns * CELL + RIGHT, height = TOP + rows * CELL + LEGEND;
    width = width < LEAST_WIDTH ? LEAST_WIDTH : width;
    fprintf(out,
            "<svg xmlns=\"http://www.w3.org/2000/svg\" width=\"%zu\" height=\"%zu\" "
            "viewBox=\"0 0 %zu %zu\" role=\"img\" aria-labelledby=\"title desc\">\n"
            "<title id=\"title\">Map of the card ",
            width, height, width, height);
    put_name(out, card);
    fprintf(out, ": %" PRIu64 " of %" PRIu64 " blocks refused</title>\n", survey->refused,
            survey->blocks);
    put_description(out, survey);
    fprintf(out, "%s<rect width=\"%zu\" height=\"%zu\" fill=\"#fff\"/>\n", style, width, height);
    const char *slash = strrchr(card, '/');
    fprintf(out, "<text class=\"title\" x=\"%d\" y=\"26\">", LEFT);
    put_name(out, slash == NULL ? card : slash + 1);
    fprintf(out, "</text>\n<text x=\"%d\" y=\"48\">%" PRIu64 " of %" PRIu64 " blocks refused; ",
            LEFT, survey->refused, survey->blocks);
    fprintf(out, map->span == 1 ? "a square is a block" : "a square is %" PRIu64 " blocks",
            map->span);
    fputs("</text>\n", out);
    put_cells(out, map);
    put_legend(out, map, TOP + rows * CELL + 16);
    fputs("</svg>\n", out);
}

char *picture_draw(const struct survey *survey, const struct map *map, const char *card,
                   size_t *length) {
    char *image = NULL;
    FILE *out = open_memstream(&image, length);
    if (out == NULL)
        return NULL;
    draw(out, survey, map, card);
    bool whole = ferror(out) == 0;
    if (fclose(out) == 0 && whole)
        return image;
    free(image);
    return NULL;
}
