/* A test of the checks: faults in place of the library's functions. */
#ifndef SELF_TEST_H
#define SELF_TEST_H

#include "checks.h"

/* Given by the program: every input of a seed, every short run, and every short history of a catalogue. A function that computes
 * for so many seconds is taken to hang. */
void check_seed(const struct functions *functions, uint64_t seed, uint64_t rounds, unsigned seconds);
void check_short_runs(const struct functions *functions, unsigned seconds);
void check_histories(const struct functions *functions, unsigned seconds);

/* 0 where every fault is found, each in a process of its own, and told by the words that belong to it: by inputs that are drawn, a
 * fault of the end of a run also by the short runs, and one that shows in a history also by the histories. */
int self_test(void);

#endif
