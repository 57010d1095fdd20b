#include "rows.h"

#include <string.h>

enum { PLACES = PAWHETINO_CATALOGUE_PLACES };

struct rows rows_of(const uint64_t *catalogue) {
    struct rows rows = {.count = 0, .tally = catalogue[1]};
    const uint64_t *next = catalogue + 2;
    for (; rows.count < PLACES && rows.count < catalogue[0]; rows.count++, next += 3)
        rows.row[rows.count] = (struct row){next[0], next[1], next[2]};
    return rows;
}

void put_rows(const struct rows *rows, uint64_t *catalogue) {
    size_t before = catalogue[0] < PLACES ? catalogue[0] : PLACES;
    uint64_t *next = catalogue + 2;
    memset(next, 0, before * sizeof(struct row));
    for (size_t i = 0; i < rows->count; i++) {
        *next++ = rows->row[i].school;
        *next++ = rows->row[i].lo;
        *next++ = rows->row[i].hi;
    }
    catalogue[0] = rows->count;
    catalogue[1] = rows->tally;
}

/* Before the first row that is not smaller; sought from behind. */
static size_t turn_of(const struct rows *rows, uint16_t school) {
    size_t turn = rows->count;
    for (size_t i = rows->count; i > 0; i--)
        if (rows->row[i - 1].school >= school) turn = i - 1;
    return turn;
}

const struct row *row_of(const struct rows *rows, uint16_t school) {
    size_t turn = turn_of(rows, school);
    return turn < rows->count && rows->row[turn].school == school ? &rows->row[turn] : NULL;
}

static bool has_separator(const struct row *row) { return row->hi % 256 != 0; }

uint32_t due_of_addition(struct rows *rows, struct row added, uint32_t checked) {
    uint16_t school = (uint16_t)added.school;
    struct rows old = *rows;
    if (checked != 0) return checked;
    if (school == 0 || row_of(&old, school) != NULL) return 25;
    if (old.count == PLACES) return 26;
    size_t turn = turn_of(&old, school);
    rows->count = 0;
    for (size_t i = 0; i <= old.count; i++) {
        if (i == turn) rows->row[rows->count++] = added;
        if (i < old.count) rows->row[rows->count++] = old.row[i];
    }
    if (has_separator(&added) && rows->tally < PLACES) rows->tally++;
    return 0;
}

uint32_t due_of_removal(struct rows *rows, uint16_t school) {
    struct rows old = *rows;
    const struct row *removed = row_of(&old, school);
    if (removed == NULL) return 27;
    rows->count = 0;
    for (const struct row *row = old.row; row < old.row + old.count; row++)
        if (row != removed) rows->row[rows->count++] = *row;
    if (has_separator(removed) && rows->tally > 0) rows->tally--;
    return 0;
}
