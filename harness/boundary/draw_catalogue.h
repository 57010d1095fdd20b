/* How catalogues are drawn, and what is sought in them. */
#ifndef DRAW_CATALOGUE_H
#define DRAW_CATALOGUE_H

#include "draw.h"

/* Behind all else of the input, whose word it may take. */
void draw_catalogue(struct drawn *drawn);

#endif
