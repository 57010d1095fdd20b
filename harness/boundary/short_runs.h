/* Every short run of separators: each length, at each place, with each kind of byte before and behind it. */
#ifndef SHORT_RUNS_H
#define SHORT_RUNS_H

#include "draw.h"

/* They are numbered from 0 on: makes the input of a number, or tells that there are no more. The run's place is n; the cursor is
 * before it or past the end. */
bool short_run(struct drawn *drawn, uint64_t number);

#endif
