/* What the calls of a catalogue come to, by a list of rows. */
#ifndef ROWS_H
#define ROWS_H

#include "checks.h"

struct row {
    uint64_t school, lo, hi;
};

/* The rows that are listed, with the tally. No call lists more than there are places. */
struct rows {
    struct row row[PAWHETINO_CATALOGUE_PLACES];
    size_t count;
    uint64_t tally;
};

/* The rows of a block. */
struct rows rows_of(const uint64_t *catalogue);

/* The block with these rows in place of those that it had: what was listed before and is no more becomes 0. */
void put_rows(const struct rows *rows, uint64_t *catalogue);

/* The row of a school, or NULL. */
const struct row *row_of(const struct rows *rows, uint16_t school);

/* The rows as they are due, with the number: of an addition, for a word that the check answers so, and of a removal. */
uint32_t due_of_addition(struct rows *rows, struct row added, uint32_t checked);
uint32_t due_of_removal(struct rows *rows, uint16_t school);

#endif
