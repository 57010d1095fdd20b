/* Every short history of a catalogue: additions and removals of three schools, from an empty one or behind others that leave few
 * places. */
#ifndef HISTORIES_H
#define HISTORIES_H

#include "draw.h"

/* They are numbered from 0 on: makes the input of a number, which is its n, or tells that there are no more. */
bool history(struct drawn *drawn, uint64_t number);

/* That history: each call's number, how many are listed and the tally after each, and at last the whole listing. */
void check_history(const struct functions *functions, const struct input *in);

#endif
