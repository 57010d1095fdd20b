/* Where the slices and places of an input lie. */
#ifndef LAY_H
#define LAY_H

#include "checks.h"

/* Each right before a page that cannot be read, or right behind one, so that a step beside it is a crash. */
void lay_against_pages(struct input *in, bool at_end);

/* Each in memory of just its size from malloc, for tools that watch such memory. */
void lay_on_the_heap(struct input *in);
void free_from_the_heap(struct input *in);

#endif
