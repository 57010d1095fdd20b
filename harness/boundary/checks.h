/* What the header promises of every function for all arguments, held to one input. */
#ifndef CHECKS_H
#define CHECKS_H

#include "pawhetino.h"

/* The functions under test: those of the library, or for a test of the checks one with a fault among them. */
struct functions {
    typeof(pawhetino_format_error) *format_error, *plain_format_error;
    typeof(pawhetino_char_is_digit_const) *char_is_digit_const;
    typeof(pawhetino_is_valid_ascii) *is_valid_ascii;
    typeof(pawhetino_is_digit) *is_digit, *is_digit_separator;
    typeof(pawhetino_fresh) *fresh;
    typeof(pawhetino_peek) *peek, *next, *next_all, *skip_zeros, *digit_run;
    typeof(pawhetino_next_all_column) *next_all_column;
    typeof(pawhetino_read_if) *read_if;
    typeof(pawhetino_read_if_value_cased) *read_if_value_cased;
    typeof(pawhetino_take_n) *take_n;
    typeof(pawhetino_current_count) *current_count;
    typeof(pawhetino_plain_peek) *plain_peek, *plain_next;
    typeof(pawhetino_run_end) *run_end;
    typeof(pawhetino_catalogue_empty) *catalogue_empty;
    typeof(pawhetino_catalogue_add) *catalogue_add;
    typeof(pawhetino_catalogue_remove) *catalogue_remove;
    typeof(pawhetino_catalogue_find) *catalogue_find;
    typeof(pawhetino_catalogue_separators) *catalogue_separators;
    typeof(pawhetino_catalogue_len) *catalogue_len;
    typeof(pawhetino_catalogue_entry) *catalogue_entry;
};

extern const struct functions library;

/* What is lent to the functions besides the slices: a state, an answer and a set, single numbers, a catalogue, and a word and an
 * entry to be told from it. */
struct places {
    uint64_t *state, *answer, *set;
    size_t *numbers[3];
    uint64_t *catalogue, *word, *entry;
};

/* The slices are at most so long. */
enum { LONGEST_BUFFER = 8192, MOST_CELLS = 40 };

/* What the functions are given, with copies of the two slices from before any call. lay.h says where slices and places lie. */
struct input {
    const uint8_t *s, *s_copy;
    size_t len;
    const size_t *ends, *ends_copy;
    size_t cells;
    struct places lent;
    uint64_t state[8];
    uint8_t reader;
    uint64_t set[4];
    uint8_t value;
    uint32_t radix;
    size_t n;
    /* The catalogue's words before any call, the school and place sought in it, and the word to be listed. */
    const uint64_t *catalogue;
    uint16_t school;
    size_t place;
    uint64_t sheet[2];
};

/* Every function with this input. The first promise that is broken goes to report_broken. */
void check_all(const struct functions *functions, const struct input *in);

/* The same for the end of a run alone, from the places n and cursor. */
void check_run_ends(const struct functions *functions, const struct input *in);

/* The numbers that have been returned so far, each as a bit: by the two checks of a word, by pawhetino_fresh, by the calls of the
 * readers, by those of a catalogue. */
struct numbers_seen {
    uint32_t by_checks, by_fresh, by_calls, by_catalogue;
};
extern struct numbers_seen numbers_seen;

/* The function that is running: what a crash or a hang is told by. */
extern const char *volatile running;

/* Given by the program: says which promise was broken by the function that is running, and does not return. */
_Noreturn void report_broken(const struct input *in, const char *promise);

#endif
