// The map of a card as an SVG image.
#ifndef PICTURE_H
#define PICTURE_H

#include "map.h"

// The image in memory that the caller frees, NULL where there is none for it.
char *picture_draw(const struct survey *survey, const struct map *map, const char *card,
                   size_t *length);

#endif
