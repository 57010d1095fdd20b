/* How arbitrary inputs are drawn: the same seed and round give the same input. */
#ifndef DRAW_H
#define DRAW_H

#include "checks.h"

struct drawn {
    /* Its slices have their copies below, and are laid elsewhere for the calls. */
    struct input input;
    uint8_t bytes[LONGEST_BUFFER];
    size_t ends[MOST_CELLS];
    uint64_t catalogue[PAWHETINO_CATALOGUE_WORDS];
};

void draw(struct drawn *drawn, uint64_t seed, uint64_t round);

#endif
