/* The library from C: a cell and its value, an optional sign, zeros and a block, a column of cells, a padded cell, a catalogue of
 * schools, and a word that is refused. Each function returns whether something came out otherwise than it must. */
#include <inttypes.h>
#include <stdio.h>
#include <string.h>

#include "pawhetino.h"

/* Tells a refusal in words. */
static int is_refused(const char *what, uint32_t number) {
    if (number == PAWHETINO_SUCCESS) return 0;
    printf("%s: refused with %" PRIu32 ": %s\n", what, number, pawhetino_number_words(number));
    return 1;
}

/* `1_204` by the integer reader: four digits, one separator passed. */
static int read_cell(struct pawhetino_word word) {
    static const uint8_t cell[] = {'1', '_', '2', '0', '4'};
    uint64_t state[8], answer[4];
    uint32_t number = pawhetino_fresh(word.lo, word.hi, 0, state);
    if (number == PAWHETINO_SUCCESS) number = pawhetino_next_all(cell, sizeof cell, PAWHETINO_INTEGER, state, answer);
    if (is_refused("1_204", number)) return 1;
    printf("1_204: %" PRIu64 " digits, %" PRIu64 " separator passed\n", state[PAWHETINO_STATE_INTEGER],
           answer[PAWHETINO_ANSWER_PASSED]);
    return state[PAWHETINO_STATE_CURSOR] != sizeof cell || state[PAWHETINO_STATE_INTEGER] != 4 ||
           answer[PAWHETINO_ANSWER_TAKEN] != 4 || answer[PAWHETINO_ANSWER_PASSED] != 1;
}

/* The same cell as a number. A cursor short of the end would mean that a byte is left which is no digit. */
static int read_value(struct pawhetino_word word) {
    static const uint8_t cell[] = {'1', '_', '2', '0', '4'};
    uint64_t state[8], answer[4];
    uint32_t number = pawhetino_fresh(word.lo, word.hi, 0, state);
    if (number == PAWHETINO_SUCCESS) number = pawhetino_digit_run(cell, sizeof cell, PAWHETINO_INTEGER, state, answer);
    if (is_refused("1_204", number)) return 1;
    printf("1_204: the number %" PRIu64 "\n", answer[PAWHETINO_ANSWER_VALUE]);
    return state[PAWHETINO_STATE_CURSOR] != sizeof cell || answer[PAWHETINO_ANSWER_VALUE] != 1204;
}

/* An optional `-` at the start of a cell: taken, declined since another byte stands there, or the end of an empty cell. */
static int read_sign(struct pawhetino_word word, const char *cell, uint64_t how) {
    static const char *const words[] = {"the cell has ended", "a sign", "no sign but the byte"};
    uint64_t state[8], answer[4];
    uint32_t number = pawhetino_fresh(word.lo, word.hi, 0, state);
    if (number == PAWHETINO_SUCCESS)
        number = pawhetino_read_if_value_cased((const uint8_t *)cell, strlen(cell), PAWHETINO_INTEGER, state, answer, '-');
    if (is_refused("a sign", number) || answer[PAWHETINO_ANSWER_READ] != how) return 1;
    printf("\"%s\": %s", cell, words[how]);
    if (how == PAWHETINO_READ_DECLINED) printf(" %c", (int)answer[PAWHETINO_ANSWER_BYTE]);
    printf("\n");
    return (how != PAWHETINO_READ_END && answer[PAWHETINO_ANSWER_BYTE] != (uint8_t)cell[0]) ||
           state[PAWHETINO_STATE_CURSOR] != (how == PAWHETINO_READ_TAKEN);
}

/* `00_12`: the integer reader skips the zeros, and its read that declines the 1 passes the separator; the fraction reader, which
 * has no flags in this word, takes what is left as a block. */
static int skip_zeros_and_take_block(struct pawhetino_word word) {
    static const uint8_t cell[] = {'0', '0', '_', '1', '2'};
    uint64_t state[8], answer[4], zeros;
    uint32_t number = pawhetino_fresh(word.lo, word.hi, 0, state);
    if (number == PAWHETINO_SUCCESS) number = pawhetino_skip_zeros(cell, sizeof cell, PAWHETINO_INTEGER, state, answer);
    if (is_refused("00_12", number)) return 1;
    zeros = answer[PAWHETINO_ANSWER_ZEROS];
    number = pawhetino_take_n(cell, sizeof cell, PAWHETINO_FRACTION, state, answer, 8);
    if (is_refused("00_12", number) || answer[PAWHETINO_ANSWER_HAS] == 0) return 1;
    printf("00_12: %" PRIu64 " zeros, then %.*s\n", zeros, (int)answer[PAWHETINO_ANSWER_TAKEN],
           (const char *)cell + answer[PAWHETINO_ANSWER_START]);
    return zeros != 2 || answer[PAWHETINO_ANSWER_START] != 3 || answer[PAWHETINO_ANSWER_TAKEN] != 2;
}

/* Three cells of a column in one call. An end past the buffer counts as its length. */
static int read_column(struct pawhetino_word word) {
    static const uint8_t column[] = "1_20412_00123456";
    static const size_t ends[] = {5, 10, SIZE_MAX};
    size_t taken, passed, digits;
    uint32_t number = pawhetino_next_all_column(column, sizeof column - 1, ends, sizeof ends / sizeof *ends, word.lo, word.hi,
                                                PAWHETINO_INTEGER, &taken, &passed, &digits);
    if (is_refused("a column", number)) return 1;
    printf("a column of three cells: %zu digits, %zu separators passed\n", digits, passed);
    return taken != 14 || passed != 2 || digits != 14;
}

/* `1`, sixteen separators, `2`: where the run ends that begins at place 1, and the steps to there. */
static int find_run_end(void) {
    static const uint8_t cell[] = "1________________2";
    size_t end, eights, ones;
    pawhetino_run_end(cell, sizeof cell - 1, '_', 1, &end, &eights, &ones);
    printf("%s: the run ends at %zu, %zu steps over eight bytes and %zu over one\n", (const char *)cell, end, eights, ones);
    return end != 17 || eights != 2 || ones != 0;
}

/* A catalogue of two schools, of which one has a separator in its sheets. A school that is listed has to be removed before it is
 * given another word. */
static int make_catalogue(struct pawhetino_word word, uint64_t catalogue[PAWHETINO_CATALOGUE_WORDS]) {
    struct pawhetino_word plain = pawhetino_word_of(0, 10, 0);
    uint32_t number;
    pawhetino_catalogue_empty(catalogue);
    if (is_refused("school 310", pawhetino_catalogue_add(catalogue, 310, word.lo, word.hi))) return 1;
    if (is_refused("school 42", pawhetino_catalogue_add(catalogue, 42, plain.lo, plain.hi))) return 1;
    number = pawhetino_catalogue_add(catalogue, 42, word.lo, word.hi);
    return !is_refused("school 42 again", number) || number != PAWHETINO_SCHOOL_ZERO_OR_LISTED;
}

/* A cell of a school by the word that the catalogue has for it. */
static int read_by_school(const uint64_t catalogue[PAWHETINO_CATALOGUE_WORDS], uint16_t school) {
    static const uint8_t cell[] = {'1', '_', '2', '0', '4'};
    uint64_t word[2], state[8], answer[4];
    uint32_t number = pawhetino_catalogue_find(catalogue, school, word);
    if (number == PAWHETINO_SUCCESS) number = pawhetino_fresh(word[0], word[1], 0, state);
    if (number == PAWHETINO_SUCCESS) number = pawhetino_digit_run(cell, sizeof cell, PAWHETINO_INTEGER, state, answer);
    if (is_refused("1_204 by its school", number)) return 1;
    printf("1_204 of school %u: the number %" PRIu64 "\n", (unsigned)school, answer[PAWHETINO_ANSWER_VALUE]);
    return answer[PAWHETINO_ANSWER_VALUE] != 1204;
}

/* The schools that are listed, and how many of them have a separator. */
static int list_schools(const uint64_t catalogue[PAWHETINO_CATALOGUE_WORDS]) {
    size_t i, schools = pawhetino_catalogue_len(catalogue);
    uint64_t entry[PAWHETINO_ENTRY_WORDS], separators = pawhetino_catalogue_separators(catalogue);
    for (i = 0; i < schools; i++) {
        if (is_refused("an entry", pawhetino_catalogue_entry(catalogue, i, entry))) return 1;
        printf("school %" PRIu64 ": word %016" PRIX64 " %016" PRIX64 "\n", entry[PAWHETINO_ENTRY_SCHOOL], entry[PAWHETINO_ENTRY_HI],
               entry[PAWHETINO_ENTRY_LO]);
    }
    printf("%zu schools, %" PRIu64 " with a separator\n", schools, separators);
    return schools != 2 || separators != 1;
}

/* Consecutive separators are allowed here, yet separators at no place. */
static int refuse_word(void) {
    struct pawhetino_word word = pawhetino_word_of('_', 10, PAWHETINO_INTEGER_CONSECUTIVE);
    uint64_t state[8];
    uint32_t number = pawhetino_fresh(word.lo, word.hi, 0, state);
    return !is_refused("consecutive alone", number) || number != PAWHETINO_INVALID_CONSECUTIVE_INTEGER;
}

int main(void) {
    /* Separator `_` between the digits of the integer, radix 10. */
    struct pawhetino_word word = pawhetino_word_of('_', 10, PAWHETINO_INTEGER_INTERNAL);
    uint64_t catalogue[PAWHETINO_CATALOGUE_WORDS];
    int wrong = read_cell(word) + read_value(word) + skip_zeros_and_take_block(word) + read_column(word);
    wrong += read_sign(word, "-7", PAWHETINO_READ_TAKEN) + read_sign(word, "7", PAWHETINO_READ_DECLINED);
    wrong += read_sign(word, "", PAWHETINO_READ_END) + find_run_end();
    wrong += make_catalogue(word, catalogue) || read_by_school(catalogue, 310) || list_schools(catalogue);
    wrong += refuse_word();
    return wrong != 0;
}
