#include "constants.h"

#include <inttypes.h>
#include <stdio.h>
#include <string.h>

#include "pawhetino.h"

#define FIELD(byte, shift) ((uint64_t)(byte) << (shift))
#define DECIMAL FIELD(10, PAWHETINO_MANTISSA_RADIX_SHIFT)

static const uint8_t readers[] = {PAWHETINO_INTEGER, PAWHETINO_FRACTION, PAWHETINO_EXPONENT, PAWHETINO_SPECIAL};

static bool told(bool holds, const char *what, uint64_t which) {
    if (!holds) printf("boundary: the header is not the library's: %s, 0x%" PRIX64 "\n", what, which);
    return holds;
}

/* A word for each number of the full check. */
static bool words_are_refused(void) {
    static const struct {
        uint64_t lo, hi;
        uint32_t number;
    } words[] = {
        {0, 0, PAWHETINO_INVALID_MANTISSA_RADIX},
        {0, DECIMAL | FIELD(1, PAWHETINO_EXPONENT_BASE_SHIFT), PAWHETINO_INVALID_EXPONENT_BASE},
        {0, DECIMAL | FIELD(1, PAWHETINO_EXPONENT_RADIX_SHIFT), PAWHETINO_INVALID_EXPONENT_RADIX},
        {0, DECIMAL | FIELD('+', PAWHETINO_DIGIT_SEPARATOR_SHIFT), PAWHETINO_INVALID_DIGIT_SEPARATOR},
        {0, DECIMAL | FIELD('+', PAWHETINO_BASE_PREFIX_SHIFT), PAWHETINO_INVALID_BASE_PREFIX},
        {0, DECIMAL | FIELD('+', PAWHETINO_BASE_SUFFIX_SHIFT), PAWHETINO_INVALID_BASE_SUFFIX},
        {0, DECIMAL | FIELD('x', PAWHETINO_BASE_PREFIX_SHIFT) | FIELD('x', PAWHETINO_BASE_SUFFIX_SHIFT),
         PAWHETINO_INVALID_PUNCTUATION},
        {PAWHETINO_NO_EXPONENT_NOTATION | PAWHETINO_REQUIRED_EXPONENT_NOTATION, DECIMAL, PAWHETINO_INVALID_EXPONENT_FLAGS},
        {PAWHETINO_NO_POSITIVE_MANTISSA_SIGN | PAWHETINO_REQUIRED_MANTISSA_SIGN, DECIMAL, PAWHETINO_INVALID_MANTISSA_SIGN},
        {PAWHETINO_NO_POSITIVE_EXPONENT_SIGN | PAWHETINO_REQUIRED_EXPONENT_SIGN, DECIMAL, PAWHETINO_INVALID_EXPONENT_SIGN},
        {PAWHETINO_NO_SPECIAL | PAWHETINO_CASE_SENSITIVE_SPECIAL, DECIMAL, PAWHETINO_INVALID_SPECIAL},
        {PAWHETINO_NO_SPECIAL | PAWHETINO_SPECIAL_DIGIT_SEPARATOR, DECIMAL, PAWHETINO_INVALID_SPECIAL},
        {PAWHETINO_INTEGER_CONSECUTIVE, DECIMAL, PAWHETINO_INVALID_CONSECUTIVE_INTEGER},
        {PAWHETINO_FRACTION_CONSECUTIVE, DECIMAL, PAWHETINO_INVALID_CONSECUTIVE_FRACTION},
        {PAWHETINO_EXPONENT_CONSECUTIVE, DECIMAL, PAWHETINO_INVALID_CONSECUTIVE_EXPONENT},
    };
    for (size_t i = 0; i < sizeof words / sizeof *words; i++)
        if (!told(pawhetino_format_error(words[i].lo, words[i].hi) == words[i].number, "a word's number", words[i].number))
            return false;
    return true;
}

/* The plain check takes two of the four flags of digits, and no other. */
static bool plain_words_are_told(void) {
    uint64_t plain = PAWHETINO_REQUIRED_EXPONENT_DIGITS | PAWHETINO_REQUIRED_MANTISSA_DIGITS;
    uint64_t all = plain | PAWHETINO_REQUIRED_INTEGER_DIGITS | PAWHETINO_REQUIRED_FRACTION_DIGITS;
    return told(pawhetino_plain_format_error(plain, DECIMAL) == PAWHETINO_SUCCESS, "a plain word", plain) &&
           told(pawhetino_plain_format_error(all, DECIMAL) == PAWHETINO_INVALID_FLAGS && all == 15, "a plain word", all);
}

/* How many separators a reader passes at a place of a text, with a word made by the header. */
static uint64_t passed(uint8_t reader, uint64_t flag, const char *text, uint64_t cursor) {
    struct pawhetino_word word = pawhetino_word_of('_', 10, flag);
    uint64_t state[8] = {word.lo, word.hi, cursor}, answer[4] = {0};
    uint32_t number = pawhetino_peek((const uint8_t *)text, strlen(text), reader, state, answer);
    return number == 0 ? answer[PAWHETINO_ANSWER_PASSED] : 0;
}

/* Each flag lets its own reader pass at its own place, and nobody anywhere else. `A` is no digit of radix 10. */
static bool flags_let_pass(void) {
    static const struct {
        const char *text;
        uint64_t cursor, flags[3];
    } places[] = {
        {"1_2", 1, {PAWHETINO_INTEGER_INTERNAL, PAWHETINO_FRACTION_INTERNAL, PAWHETINO_EXPONENT_INTERNAL}},
        {"A_1", 1, {PAWHETINO_INTEGER_LEADING, PAWHETINO_FRACTION_LEADING, PAWHETINO_EXPONENT_LEADING}},
        {"1_A", 1, {PAWHETINO_INTEGER_TRAILING, PAWHETINO_FRACTION_TRAILING, PAWHETINO_EXPONENT_TRAILING}},
    };
    for (int own = 0; own < 9; own++)
        for (int at = 0; at < 12; at++) {
            uint64_t flag = places[own / 3].flags[own % 3];
            bool passes = at / 4 == own / 3 && at % 4 == own % 3;
            if (!told(passed(readers[at % 4], flag, places[at / 4].text, places[at / 4].cursor) == passes, "a flag", flag))
                return false;
        }
    uint64_t special = PAWHETINO_SPECIAL_DIGIT_SEPARATOR;
    return told(passed(PAWHETINO_SPECIAL, special, "__", 0) == 2, "a flag", special);
}

/* The readers take one, two and three digits; and the word that is kept may be any. */
static bool states_have_their_places(void) {
    struct pawhetino_word word = pawhetino_word_of(
        '_', 10, PAWHETINO_INTEGER_INTERNAL | PAWHETINO_FRACTION_INTERNAL | PAWHETINO_EXPONENT_INTERNAL);
    uint64_t state[8], answer[4];
    bool taken = pawhetino_fresh(word.lo, word.hi, 0, state) == 0;
    state[PAWHETINO_STATE_KEPT] = 1;
    for (size_t i = 0; i < 6; i++)
        taken = taken && pawhetino_next((const uint8_t *)"123456", 6, readers[i == 0 ? 0 : i < 3 ? 1 : 2], state, answer) == 0;
    return told(taken && state[PAWHETINO_STATE_LO] == word.lo && state[PAWHETINO_STATE_HI] == word.hi, "a state's word", 0) &&
           told(state[PAWHETINO_STATE_CURSOR] == 6 && state[PAWHETINO_STATE_EDITION] == 0, "a state's cursor", 6) &&
           told(state[PAWHETINO_STATE_INTEGER] == 1 && state[PAWHETINO_STATE_FRACTION] == 2, "a state's counts", 1) &&
           told(state[PAWHETINO_STATE_EXPONENT] == 3 && state[PAWHETINO_STATE_KEPT] == 1, "a state's counts", 3);
}

/* A zero skip on no bytes for each number of a call. */
static bool calls_are_refused(void) {
    static const struct {
        uint8_t reader;
        uint64_t cursor, integer;
        uint32_t number;
    } calls[] = {
        {PAWHETINO_INTEGER, 1, 0, PAWHETINO_CURSOR_PAST_END},
        {PAWHETINO_INTEGER, 0, 1, PAWHETINO_COUNTS_EXCEED_CURSOR},
        {PAWHETINO_SPECIAL, 0, 0, PAWHETINO_NOT_BY_SPECIAL},
        {PAWHETINO_SPECIAL + 1, 0, 0, PAWHETINO_UNKNOWN},
    };
    for (size_t i = 0; i < sizeof calls / sizeof *calls; i++) {
        uint64_t state[8] = {0, DECIMAL, calls[i].cursor, calls[i].integer}, answer[4] = {7, 7, 7, 7};
        uint32_t number = pawhetino_skip_zeros((const uint8_t *)"", 0, calls[i].reader, state, answer);
        if (!told(number == calls[i].number && answer[PAWHETINO_ANSWER_ZEROS] == 7, "a call's number", number)) return false;
    }
    return true;
}

/* A digit run for each of its two numbers, and for the largest value. */
static bool runs_are_told(void) {
    static const struct {
        const char *cell;
        uint32_t number;
        uint64_t value;
    } runs[] = {
        {"x", PAWHETINO_NO_DIGIT, 7},
        {"18446744073709551616", PAWHETINO_VALUE_ABOVE_64_BITS, 7},
        {"18446744073709551615", PAWHETINO_SUCCESS, UINT64_MAX},
    };
    for (size_t i = 0; i < sizeof runs / sizeof *runs; i++) {
        uint64_t state[8] = {0, DECIMAL}, answer[4] = {7, 7, 7, 7};
        const uint8_t *cell = (const uint8_t *)runs[i].cell;
        uint32_t number = pawhetino_digit_run(cell, strlen(runs[i].cell), PAWHETINO_INTEGER, state, answer);
        if (!told(number == runs[i].number && answer[PAWHETINO_ANSWER_VALUE] == runs[i].value, "a run's number", number))
            return false;
    }
    return true;
}

/* A read of `1` on each way, the word of a byte left at the end. */
static bool reads_are_told(void) {
    static const struct {
        const char *cell;
        uint64_t how, byte, taken;
    } reads[] = {
        {"", PAWHETINO_READ_END, 7, 0},
        {"1", PAWHETINO_READ_TAKEN, '1', 1},
        {"2", PAWHETINO_READ_DECLINED, '2', 0},
    };
    for (size_t i = 0; i < sizeof reads / sizeof *reads; i++) {
        uint64_t state[8] = {0, DECIMAL}, answer[4] = {7, 7, 7, 7};
        const uint8_t *cell = (const uint8_t *)reads[i].cell;
        uint32_t number = pawhetino_read_if_value_cased(cell, strlen(reads[i].cell), PAWHETINO_INTEGER, state, answer, '1');
        bool holds = number == 0 && answer[PAWHETINO_ANSWER_READ] == reads[i].how &&
                     answer[PAWHETINO_ANSWER_BYTE] == reads[i].byte && answer[PAWHETINO_ANSWER_TAKEN] == reads[i].taken;
        if (!told(holds, "how a read ends", reads[i].how)) return false;
    }
    return true;
}

/* A catalogue that is filled, the last school without a separator: where its words are, and each of its numbers. */
static bool catalogues_are_told(void) {
    enum { PLACES = PAWHETINO_CATALOGUE_PLACES };
    uint64_t catalogue[PAWHETINO_CATALOGUE_WORDS], *end = catalogue + PAWHETINO_CATALOGUE_WORDS;
    pawhetino_catalogue_empty(catalogue);
    for (uint16_t school = 1; school <= PLACES; school++) {
        struct pawhetino_word word = pawhetino_word_of(school < PLACES ? '_' : 0, 10, PAWHETINO_INTEGER_INTERNAL);
        if (!told(pawhetino_catalogue_add(catalogue, school, word.lo, word.hi) == 0, "a catalogue's place", school)) return false;
    }
    uint64_t *last = catalogue + PAWHETINO_CATALOGUE_ENTRIES + PAWHETINO_ENTRY_WORDS * (PLACES - 1);
    uint32_t added = pawhetino_catalogue_add(catalogue, PLACES + 1, 0, DECIMAL);
    uint32_t twice = pawhetino_catalogue_add(catalogue, PLACES, 0, DECIMAL);
    return told(added == PAWHETINO_CATALOGUE_FULL && last + PAWHETINO_ENTRY_WORDS == end, "a full catalogue", added) &&
           told(twice == PAWHETINO_SCHOOL_ZERO_OR_LISTED, "a school that is listed", twice) &&
           told(pawhetino_catalogue_remove(catalogue, PLACES + 1) == PAWHETINO_SCHOOL_NOT_LISTED, "a school that is not", 0) &&
           told(catalogue[PAWHETINO_CATALOGUE_LEN] == PLACES, "how many are listed", catalogue[0]) &&
           told(catalogue[PAWHETINO_CATALOGUE_SEPARATORS] == PLACES - 1, "a tally", catalogue[1]) &&
           told(last[PAWHETINO_ENTRY_SCHOOL] == PLACES, "an entry", last[0]) &&
           told(last[PAWHETINO_ENTRY_LO] == PAWHETINO_INTEGER_INTERNAL, "an entry's word", last[1]) &&
           told(last[PAWHETINO_ENTRY_HI] == DECIMAL, "an entry's word", last[2]);
}

/* Each number has words of its own, and all others share theirs. */
static bool numbers_have_words(void) {
    const uint32_t other = PAWHETINO_SCHOOL_NOT_LISTED + 1;
    for (uint32_t number = 1; number <= other; number++)
        for (uint32_t before = 0; before < number; before++)
            if (!told(strcmp(pawhetino_number_words(number), pawhetino_number_words(before)) != 0, "words", number)) return false;
    return told(strcmp(pawhetino_number_words(other), pawhetino_number_words(UINT32_MAX)) == 0, "words", other);
}

bool constants_hold(void) {
    return words_are_refused() && plain_words_are_told() && flags_let_pass() && states_have_their_places() &&
           calls_are_refused() && runs_are_told() && reads_are_told() && catalogues_are_told() && numbers_have_words();
}
