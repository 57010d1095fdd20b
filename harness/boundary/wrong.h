/* Faults in place of the library's functions. */
#ifndef WRONG_H
#define WRONG_H

#include "checks.h"

/* What is put in place, with all else NULL, and the words by which it must be told. */
struct fault {
    const char *what;
    struct functions wrong;
    const char *told;
};

/* Of the readers and the checks, of a catalogue, and those of the latter that show in a history from an empty one. */
extern const struct fault faults[], catalogue_faults[], history_faults[];
extern const size_t fault_count, catalogue_fault_count, history_fault_count;

#endif
