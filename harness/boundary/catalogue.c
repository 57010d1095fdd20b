/* The calls of a catalogue, the whole block of each held to the rows that are due. */
#include <string.h>

#include "parts.h"
#include "rows.h"

enum { WORDS = PAWHETINO_CATALOGUE_WORDS, ENTRIES = PAWHETINO_CATALOGUE_ENTRIES };

/* Before a call: the input's catalogue, and a word and an entry that are untouched. */
static void lend_catalogue(const struct input *in) {
    memcpy(in->lent.catalogue, in->catalogue, WORDS * sizeof(uint64_t));
    for (int i = 0; i < 2; i++) in->lent.word[i] = UNTOUCHED;
    for (int i = 0; i < PAWHETINO_ENTRY_WORDS; i++) in->lent.entry[i] = UNTOUCHED;
}

/* What a call that is lent the catalogue to be read, or refuses, leaves. */
static void check_catalogue_kept(const struct input *in, const char *what) {
    promise(in, memcmp(in->lent.catalogue, in->catalogue, WORDS * sizeof(uint64_t)) == 0, what);
}

/* The two numbers first, so that what is wrong with them alone is told. */
static void check_changed(const struct input *in, uint32_t number, const struct rows *rows) {
    const uint64_t *catalogue = in->lent.catalogue;
    uint64_t due[WORDS];
    if (number != 0) {
        check_catalogue_kept(in, "a refused call leaves the catalogue");
        return;
    }
    memcpy(due, in->catalogue, sizeof due);
    put_rows(rows, due);
    promise(in, catalogue[PAWHETINO_CATALOGUE_LEN] == rows->count, "as many are listed as are due");
    promise(in, catalogue[PAWHETINO_CATALOGUE_SEPARATORS] == rows->tally, "the tally is the one that is due");
    promise(in, memcmp(catalogue + ENTRIES, due + ENTRIES, sizeof due - ENTRIES * sizeof *due) == 0,
            "the entries are those that are due, and behind them nothing changes");
}

static void check_empty(const struct functions *f, const struct input *in) {
    running = "pawhetino_catalogue_empty";
    lend_catalogue(in);
    f->catalogue_empty(in->lent.catalogue);
    for (int i = 0; i < WORDS; i++) promise(in, in->lent.catalogue[i] == 0, "every word of an empty catalogue is 0");
}

static void check_add(const struct functions *f, const struct input *in) {
    running = "pawhetino_catalogue_add";
    uint64_t lo = in->sheet[0], hi = in->sheet[1];
    struct rows rows = rows_of(in->catalogue);
    uint32_t due = due_of_addition(&rows, (struct row){in->school, lo, hi}, f->format_error(lo, hi));
    lend_catalogue(in);
    uint32_t number = f->catalogue_add(in->lent.catalogue, in->school, lo, hi);
    check_number(in, number, due, &numbers_seen.by_catalogue);
    check_changed(in, number, &rows);
}

static void check_remove(const struct functions *f, const struct input *in) {
    running = "pawhetino_catalogue_remove";
    struct rows rows = rows_of(in->catalogue);
    uint32_t due = due_of_removal(&rows, in->school);
    lend_catalogue(in);
    uint32_t number = f->catalogue_remove(in->lent.catalogue, in->school);
    check_number(in, number, due, &numbers_seen.by_catalogue);
    check_changed(in, number, &rows);
}

static void check_find(const struct functions *f, const struct input *in, const struct rows *rows) {
    running = "pawhetino_catalogue_find";
    const struct row *row = row_of(rows, in->school);
    lend_catalogue(in);
    uint32_t number = f->catalogue_find(in->lent.catalogue, in->school, in->lent.word);
    check_catalogue_kept(in, "the catalogue stays as it is");
    check_number(in, number, row == NULL ? 27 : 0, &numbers_seen.by_catalogue);
    promise(in, in->lent.word[0] == (row == NULL ? UNTOUCHED : row->lo), "the word is the school's, or left");
    promise(in, in->lent.word[1] == (row == NULL ? UNTOUCHED : row->hi), "the word is the school's, or left");
}

static void check_entry(const struct functions *f, const struct input *in, const struct rows *rows, size_t place) {
    running = "pawhetino_catalogue_entry";
    const struct row left = {UNTOUCHED, UNTOUCHED, UNTOUCHED}, *row = place < rows->count ? &rows->row[place] : &left;
    const uint64_t *entry = in->lent.entry;
    lend_catalogue(in);
    uint32_t number = f->catalogue_entry(in->lent.catalogue, place, in->lent.entry);
    check_catalogue_kept(in, "the catalogue stays as it is");
    check_number(in, number, row == &left ? 27 : 0, &numbers_seen.by_catalogue);
    promise(in, entry[0] == row->school && entry[1] == row->lo && entry[2] == row->hi, "the entry is the place's, or left");
}

static void check_numbers(const struct functions *f, const struct input *in, const struct rows *rows) {
    lend_catalogue(in);
    running = "pawhetino_catalogue_separators";
    promise(in, f->catalogue_separators(in->lent.catalogue) == rows->tally, "the tally as it stands");
    check_catalogue_kept(in, "the catalogue stays as it is");
    running = "pawhetino_catalogue_len";
    promise(in, f->catalogue_len(in->lent.catalogue) == rows->count, "as many as are listed, at most 64");
    check_catalogue_kept(in, "the catalogue stays as it is");
}

void check_catalogue(const struct functions *f, const struct input *in) {
    const struct rows rows = rows_of(in->catalogue);
    check_empty(f, in);
    check_add(f, in);
    check_remove(f, in);
    check_find(f, in, &rows);
    check_numbers(f, in, &rows);
    check_entry(f, in, &rows, in->place);
    /* The last one that is listed, and the first that is not. */
    check_entry(f, in, &rows, rows.count - 1);
    check_entry(f, in, &rows, rows.count);
}
