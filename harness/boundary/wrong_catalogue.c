/* Faults in place of a catalogue's calls. Blocks are plain pointers here too. */
#include <string.h>

#include "wrong.h"

#define ADD(name) static uint32_t name(uint64_t *c, uint16_t school, uint64_t lo, uint64_t hi)
#define REMOVE(name) static uint32_t name(uint64_t *c, uint16_t school)
#define FIND(name) static uint32_t name(const uint64_t *c, uint16_t school, uint64_t *word)
#define ENTRY(name) static uint32_t name(const uint64_t *c, size_t i, uint64_t *entry)

enum { WORDS = PAWHETINO_CATALOGUE_WORDS, PLACES = PAWHETINO_CATALOGUE_PLACES };

/* What is read only to be read. */
static volatile uint64_t seen;

static uint64_t *place_of(uint64_t *c, uint64_t place) {
    return c + PAWHETINO_CATALOGUE_ENTRIES + PAWHETINO_ENTRY_WORDS * place;
}

static const uint64_t *place_in(const uint64_t *c, uint64_t place) { return place_of((uint64_t *)c, place); }

/* Steps beside what is lent. */

static void empties_a_word_too_many(uint64_t *c) {
    pawhetino_catalogue_empty(c);
    c[WORDS] = 0;
}

/* As where the entries move up before it is known whether there is a place. */
ADD(adds_behind_the_last_place) {
    uint32_t number = pawhetino_catalogue_add(c, school, lo, hi);
    if (number == PAWHETINO_CATALOGUE_FULL) c[WORDS] = school;
    return number;
}

/* As where each place gets what the next one has, the last one too. */
REMOVE(moves_down_what_is_behind) {
    uint32_t number = pawhetino_catalogue_remove(c, school);
    if (number == 0 && c[PAWHETINO_CATALOGUE_LEN] == PLACES - 1) seen = c[WORDS];
    return number;
}

REMOVE(writes_before_the_catalogue) {
    ((uint8_t *)c)[-1] = 0;
    return pawhetino_catalogue_remove(c, school);
}

/* As where the last entry is looked at first. */
FIND(seeks_in_as_many_as_it_says) {
    uint64_t len = c[PAWHETINO_CATALOGUE_LEN];
    if (len > PLACES) seen = *place_in(c, len - 1);
    return pawhetino_catalogue_find(c, school, word);
}

FIND(writes_behind_the_word) {
    word[2] = 0;
    return pawhetino_catalogue_find(c, school, word);
}

ENTRY(gives_any_place) {
    if (i >= PLACES) seen = *place_in(c, i);
    return pawhetino_catalogue_entry(c, i, entry);
}

ENTRY(writes_behind_the_entry) {
    entry[PAWHETINO_ENTRY_WORDS] = 0;
    return pawhetino_catalogue_entry(c, i, entry);
}

/* Writes to what is lent to be read. */

FIND(marks_what_it_finds) {
    uint32_t number = pawhetino_catalogue_find(c, school, word);
    if (number == 0) ((uint64_t *)c)[WORDS - 1] ^= 1;
    return number;
}

ENTRY(takes_the_entry_out) {
    uint32_t number = pawhetino_catalogue_entry(c, i, entry);
    if (number == 0) *place_of((uint64_t *)c, i) = 0;
    return number;
}

static size_t mends_the_catalogue(const uint64_t *c) {
    size_t len = pawhetino_catalogue_len(c);
    ((uint64_t *)c)[PAWHETINO_CATALOGUE_LEN] = len;
    return len;
}

static uint64_t mends_the_tally(const uint64_t *c) {
    uint64_t tally = pawhetino_catalogue_separators(c);
    if (tally > PLACES) ((uint64_t *)c)[PAWHETINO_CATALOGUE_SEPARATORS] = PLACES;
    return tally;
}

/* Wrong numbers. */

static bool is_full(const uint64_t *c) { return c[PAWHETINO_CATALOGUE_LEN] >= PLACES; }

/* An entry at a place of a catalogue that is not full, whether or not it belongs there. */
static uint32_t put(uint64_t *c, uint64_t place, uint16_t school, uint64_t lo, uint64_t hi) {
    const uint64_t entry[] = {school, lo, hi};
    uint64_t len = c[PAWHETINO_CATALOGUE_LEN];
    memmove(place_of(c, place + 1), place_of(c, place), (len - place) * sizeof entry);
    memcpy(place_of(c, place), entry, sizeof entry);
    c[PAWHETINO_CATALOGUE_LEN] += 1;
    c[PAWHETINO_CATALOGUE_SEPARATORS] += (hi & 0xFF) != 0;
    return 0;
}

ADD(adds_school_0) {
    uint32_t number = pawhetino_catalogue_add(c, school, lo, hi);
    if (number != PAWHETINO_SCHOOL_ZERO_OR_LISTED || school != 0 || is_full(c)) return number;
    return put(c, 0, school, lo, hi);
}

ADD(adds_twice) {
    uint32_t number = pawhetino_catalogue_add(c, school, lo, hi);
    if (number != PAWHETINO_SCHOOL_ZERO_OR_LISTED || school == 0 || is_full(c)) return number;
    return put(c, 0, school, lo, hi);
}

ADD(tests_the_places_first) {
    uint32_t number = pawhetino_catalogue_add(c, school, lo, hi);
    return number == PAWHETINO_SCHOOL_ZERO_OR_LISTED && is_full(c) ? PAWHETINO_CATALOGUE_FULL : number;
}

ADD(tests_the_school_before_the_word) {
    uint64_t word[2];
    bool listed = pawhetino_catalogue_find(c, school, word) == 0;
    return listed ? PAWHETINO_SCHOOL_ZERO_OR_LISTED : pawhetino_catalogue_add(c, school, lo, hi);
}

ADD(tests_the_places_before_the_word) {
    uint32_t number = pawhetino_catalogue_add(c, school, lo, hi);
    return number != 0 && is_full(c) ? PAWHETINO_CATALOGUE_FULL : number;
}

ADD(adds_any_word) {
    uint32_t number = pawhetino_catalogue_add(c, school, lo, hi);
    if (number == 0 || number >= PAWHETINO_SCHOOL_ZERO_OR_LISTED || is_full(c)) return number;
    return put(c, 0, school, lo, hi);
}

/* As where the check stops before the flags of consecutive separators. */
ADD(leaves_out_the_last_tests) {
    uint32_t number = pawhetino_catalogue_add(c, school, lo, hi);
    return number >= 12 && number <= 14 && !is_full(c) ? put(c, 0, school, lo, hi) : number;
}

ADD(runs_the_plain_check) {
    uint32_t number = pawhetino_plain_format_error(lo, hi);
    return number != 0 ? number : pawhetino_catalogue_add(c, school, lo, hi);
}

ADD(is_full_with_63) {
    uint32_t number = pawhetino_catalogue_add(c, school, lo, hi);
    return number == 0 && c[PAWHETINO_CATALOGUE_LEN] == PLACES ? PAWHETINO_CATALOGUE_FULL : number;
}

ADD(drops_the_last_for_the_new) {
    uint32_t number = pawhetino_catalogue_add(c, school, lo, hi);
    if (number != PAWHETINO_CATALOGUE_FULL) return number;
    c[PAWHETINO_CATALOGUE_LEN] = PLACES - 1;
    return pawhetino_catalogue_add(c, school, lo, hi);
}

REMOVE(removes_what_is_not_there) {
    pawhetino_catalogue_remove(c, school);
    return 0;
}

FIND(compares_16_bits) {
    for (size_t i = 0; i < pawhetino_catalogue_len(c); i++)
        if ((uint16_t)*place_in(c, i) == school && *place_in(c, i) != school) return 0;
    return pawhetino_catalogue_find(c, school, word);
}

/* As where a removed entry is left to be found. */
FIND(seeks_in_all_places) {
    uint32_t number = pawhetino_catalogue_find(c, school, word);
    for (size_t i = pawhetino_catalogue_len(c); i < PLACES; i++)
        if (number != 0 && *place_in(c, i) == school) return 0;
    return number;
}

ENTRY(has_one_more) {
    return i == pawhetino_catalogue_len(c) ? 0 : pawhetino_catalogue_entry(c, i, entry);
}

ENTRY(has_one_less) {
    return i + 1 == pawhetino_catalogue_len(c) ? PAWHETINO_SCHOOL_NOT_LISTED : pawhetino_catalogue_entry(c, i, entry);
}

/* Wrong catalogues. */

static void leaves_the_last_place(uint64_t *c) {
    uint64_t last = c[WORDS - 1];
    pawhetino_catalogue_empty(c);
    c[WORDS - 1] = last;
}

static void leaves_the_tally(uint64_t *c) {
    uint64_t tally = c[PAWHETINO_CATALOGUE_SEPARATORS];
    pawhetino_catalogue_empty(c);
    c[PAWHETINO_CATALOGUE_SEPARATORS] = tally;
}

ADD(does_not_raise_the_tally) {
    uint64_t tally = c[PAWHETINO_CATALOGUE_SEPARATORS];
    uint32_t number = pawhetino_catalogue_add(c, school, lo, hi);
    c[PAWHETINO_CATALOGUE_SEPARATORS] = tally;
    return number;
}

ADD(raises_the_tally_for_any_word) {
    uint32_t number = pawhetino_catalogue_add(c, school, lo, hi);
    if (number == 0 && (hi & 0xFF) == 0) c[PAWHETINO_CATALOGUE_SEPARATORS] += 1;
    return number;
}

ADD(raises_the_tally_past_64) {
    uint64_t tally = c[PAWHETINO_CATALOGUE_SEPARATORS];
    uint32_t number = pawhetino_catalogue_add(c, school, lo, hi);
    if (number == 0 && (hi & 0xFF) != 0) c[PAWHETINO_CATALOGUE_SEPARATORS] = tally + 1;
    return number;
}

REMOVE(does_not_lower_the_tally) {
    uint64_t tally = c[PAWHETINO_CATALOGUE_SEPARATORS];
    uint32_t number = pawhetino_catalogue_remove(c, school);
    c[PAWHETINO_CATALOGUE_SEPARATORS] = tally;
    return number;
}

REMOVE(lowers_the_tally_past_0) {
    uint64_t tally = c[PAWHETINO_CATALOGUE_SEPARATORS], word[2] = {0, 0};
    pawhetino_catalogue_find(c, school, word);
    uint32_t number = pawhetino_catalogue_remove(c, school);
    if (number == 0 && (word[1] & 0xFF) != 0) c[PAWHETINO_CATALOGUE_SEPARATORS] = tally - 1;
    return number;
}

ADD(does_not_count_the_school) {
    uint64_t len = c[PAWHETINO_CATALOGUE_LEN];
    uint32_t number = pawhetino_catalogue_add(c, school, lo, hi);
    c[PAWHETINO_CATALOGUE_LEN] = len;
    return number;
}

REMOVE(loses_the_place) {
    uint64_t len = c[PAWHETINO_CATALOGUE_LEN];
    uint32_t number = pawhetino_catalogue_remove(c, school);
    c[PAWHETINO_CATALOGUE_LEN] = len;
    return number;
}

REMOVE(lowers_what_it_says) {
    uint64_t len = c[PAWHETINO_CATALOGUE_LEN];
    uint32_t number = pawhetino_catalogue_remove(c, school);
    if (number == 0) c[PAWHETINO_CATALOGUE_LEN] = len - 1;
    return number;
}

REMOVE(leaves_the_freed_place) {
    uint64_t last[PAWHETINO_ENTRY_WORDS];
    bool any = pawhetino_catalogue_len(c) > 0;
    if (any) memcpy(last, place_of(c, pawhetino_catalogue_len(c) - 1), sizeof last);
    uint32_t number = pawhetino_catalogue_remove(c, school);
    if (any && number == 0) memcpy(place_of(c, c[PAWHETINO_CATALOGUE_LEN]), last, sizeof last);
    return number;
}

REMOVE(removes_each_of_the_school) {
    uint32_t number = pawhetino_catalogue_remove(c, school);
    while (number == 0 && pawhetino_catalogue_remove(c, school) == 0) continue;
    return number;
}

/* As where the order does not matter. */
REMOVE(fills_the_gap_with_the_last) {
    uint64_t gap = 0, last[PAWHETINO_ENTRY_WORDS], len = pawhetino_catalogue_len(c);
    while (gap < len && *place_of(c, gap) != school) gap++;
    if (len > 0) memcpy(last, place_of(c, len - 1), sizeof last);
    uint32_t number = pawhetino_catalogue_remove(c, school);
    if (number != 0 || gap + 1 >= len) return number;
    memmove(place_of(c, gap + 1), place_of(c, gap), (len - gap - 2) * sizeof last);
    memcpy(place_of(c, gap), last, sizeof last);
    return number;
}

ADD(adds_behind_the_others) {
    uint64_t word[2], len = c[PAWHETINO_CATALOGUE_LEN];
    bool listed = pawhetino_catalogue_find(c, school, word) == 0;
    bool refused = school == 0 || listed || is_full(c) || pawhetino_format_error(lo, hi) != 0;
    bool stays = c[PAWHETINO_CATALOGUE_SEPARATORS] >= PLACES;
    return refused || stays ? pawhetino_catalogue_add(c, school, lo, hi) : put(c, len, school, lo, hi);
}

ADD(clears_the_place_behind) {
    uint32_t number = pawhetino_catalogue_add(c, school, lo, hi);
    uint64_t len = c[PAWHETINO_CATALOGUE_LEN];
    if (number == 0 && len < PLACES) *place_of(c, len) = 0;
    return number;
}

ADD(changes_a_word_though_refused) {
    uint32_t number = pawhetino_catalogue_add(c, school, lo, hi);
    if (number == PAWHETINO_CATALOGUE_FULL) c[PAWHETINO_CATALOGUE_SEPARATORS] += 1;
    return number;
}

ADD(takes_the_new_word_though_refused) {
    uint32_t number = pawhetino_catalogue_add(c, school, lo, hi);
    for (size_t i = 0; number == PAWHETINO_SCHOOL_ZERO_OR_LISTED && i < pawhetino_catalogue_len(c); i++)
        if (*place_of(c, i) == school) place_of(c, i)[PAWHETINO_ENTRY_HI] = hi;
    return number;
}

REMOVE(mends_the_catalogue_though_refused) {
    uint32_t number = pawhetino_catalogue_remove(c, school);
    if (number != 0) c[PAWHETINO_CATALOGUE_LEN] = pawhetino_catalogue_len(c);
    return number;
}

/* Wrong answers. */

FIND(writes_a_word_though_refused) {
    uint32_t number = pawhetino_catalogue_find(c, school, word);
    if (number != 0) word[0] = word[1] = 0;
    return number;
}

FIND(tells_the_low_half_twice) {
    uint32_t number = pawhetino_catalogue_find(c, school, word);
    if (number == 0) word[1] = word[0];
    return number;
}

ENTRY(writes_an_entry_though_refused) {
    uint32_t number = pawhetino_catalogue_entry(c, i, entry);
    if (number != 0) entry[PAWHETINO_ENTRY_SCHOOL] = 0;
    return number;
}

ENTRY(gives_the_first_entry) {
    uint32_t number = pawhetino_catalogue_entry(c, i, entry);
    return number == 0 ? pawhetino_catalogue_entry(c, 0, entry) : number;
}

static size_t tells_what_it_says(const uint64_t *c) { return c[PAWHETINO_CATALOGUE_LEN]; }

static uint64_t counts_the_entries(const uint64_t *c) {
    uint64_t tally = 0;
    for (size_t i = 0; i < pawhetino_catalogue_len(c); i++) tally += (place_in(c, i)[PAWHETINO_ENTRY_HI] & 0xFF) != 0;
    return tally;
}

#define THE_NUMBER "broken: the number is the one that is due"
#define THE_TALLY "broken: the tally is the one that is due"
#define THE_LEN "broken: as many are listed as are due"
#define THE_ENTRIES "broken: the entries are those that are due"
#define KEPT "broken: the catalogue stays as it is"
#define REFUSED "broken: a refused call leaves the catalogue"

const struct fault catalogue_faults[] = {
    {"a word too many emptied", {.catalogue_empty = empties_a_word_too_many}, "pawhetino_catalogue_empty: crashed"},
    {"an entry behind the last place", {.catalogue_add = adds_behind_the_last_place}, "pawhetino_catalogue_add: crashed"},
    {"a read behind the last place", {.catalogue_remove = moves_down_what_is_behind}, "pawhetino_catalogue_remove: crashed"},
    {"a write before the catalogue", {.catalogue_remove = writes_before_the_catalogue}, "pawhetino_catalogue_remove: crashed"},
    {"more than 64 as it stands", {.catalogue_find = seeks_in_as_many_as_it_says}, "pawhetino_catalogue_find: crashed"},
    {"a write behind the word", {.catalogue_find = writes_behind_the_word}, "pawhetino_catalogue_find: crashed"},
    {"any place of a catalogue", {.catalogue_entry = gives_any_place}, "pawhetino_catalogue_entry: crashed"},
    {"a write behind the entry", {.catalogue_entry = writes_behind_the_entry}, "pawhetino_catalogue_entry: crashed"},
    {"a look-up's write", {.catalogue_find = marks_what_it_finds}, "find: " KEPT},
    {"an entry taken out", {.catalogue_entry = takes_the_entry_out}, "entry: " KEPT},
    {"a catalogue mended", {.catalogue_len = mends_the_catalogue}, "len: " KEPT},
    {"a tally mended", {.catalogue_separators = mends_the_tally}, "separators: " KEPT},
    {"school 0 listed", {.catalogue_add = adds_school_0}, "add: " THE_NUMBER},
    {"a school listed twice", {.catalogue_add = adds_twice}, "add: " THE_NUMBER},
    {"26 before 25", {.catalogue_add = tests_the_places_first}, "add: " THE_NUMBER},
    {"25 before the word's check", {.catalogue_add = tests_the_school_before_the_word}, "add: " THE_NUMBER},
    {"26 before the word's check", {.catalogue_add = tests_the_places_before_the_word}, "add: " THE_NUMBER},
    {"a refused word listed", {.catalogue_add = adds_any_word}, "add: " THE_NUMBER},
    {"a check cut short", {.catalogue_add = leaves_out_the_last_tests}, "add: " THE_NUMBER},
    {"the plain check", {.catalogue_add = runs_the_plain_check}, "add: " THE_NUMBER},
    {"full with 63", {.catalogue_add = is_full_with_63}, "add: " THE_NUMBER},
    {"the last dropped for the new", {.catalogue_add = drops_the_last_for_the_new}, "add: " THE_NUMBER},
    {"a removal of what is not there", {.catalogue_remove = removes_what_is_not_there}, "remove: " THE_NUMBER},
    {"schools of 16 bits alone", {.catalogue_find = compares_16_bits}, "find: " THE_NUMBER},
    {"a place that is not listed", {.catalogue_find = seeks_in_all_places}, "find: " THE_NUMBER},
    {"an entry too many", {.catalogue_entry = has_one_more}, "entry: " THE_NUMBER},
    {"an entry too few", {.catalogue_entry = has_one_less}, "entry: " THE_NUMBER},
    {"the last place not emptied", {.catalogue_empty = leaves_the_last_place}, "broken: every word of an empty catalogue is 0"},
    {"the tally not emptied", {.catalogue_empty = leaves_the_tally}, "broken: every word of an empty catalogue is 0"},
    {"a tally not raised", {.catalogue_add = does_not_raise_the_tally}, "add: " THE_TALLY},
    {"a tally of any word", {.catalogue_add = raises_the_tally_for_any_word}, "add: " THE_TALLY},
    {"a tally past 64", {.catalogue_add = raises_the_tally_past_64}, "add: " THE_TALLY},
    {"a tally not lowered", {.catalogue_remove = does_not_lower_the_tally}, "remove: " THE_TALLY},
    {"a tally past 0", {.catalogue_remove = lowers_the_tally_past_0}, "remove: " THE_TALLY},
    {"a school not counted", {.catalogue_add = does_not_count_the_school}, "add: " THE_LEN},
    {"a removed place lost", {.catalogue_remove = loses_the_place}, "remove: " THE_LEN},
    {"one less than it says", {.catalogue_remove = lowers_what_it_says}, "remove: " THE_LEN},
    {"each of a school's removed", {.catalogue_remove = removes_each_of_the_school}, "remove: " THE_LEN},
    {"a freed place not cleared", {.catalogue_remove = leaves_the_freed_place}, "remove: " THE_ENTRIES},
    {"a gap filled with the last", {.catalogue_remove = fills_the_gap_with_the_last}, "remove: " THE_ENTRIES},
    {"an entry out of turn", {.catalogue_add = adds_behind_the_others}, "add: " THE_ENTRIES},
    {"a place too many cleared", {.catalogue_add = clears_the_place_behind}, "add: " THE_ENTRIES},
    {"a refused addition's tally", {.catalogue_add = changes_a_word_though_refused}, "add: " REFUSED},
    {"a refused addition's word", {.catalogue_add = takes_the_new_word_though_refused}, "add: " REFUSED},
    {"a refused removal's mend", {.catalogue_remove = mends_the_catalogue_though_refused}, "remove: " REFUSED},
    {"a refused look-up's word", {.catalogue_find = writes_a_word_though_refused}, "find: broken: the word is the school's"},
    {"a word's low half twice", {.catalogue_find = tells_the_low_half_twice}, "find: broken: the word is the school's"},
    {"a refused entry", {.catalogue_entry = writes_an_entry_though_refused}, "entry: broken: the entry is the place's"},
    {"the first entry for each", {.catalogue_entry = gives_the_first_entry}, "entry: broken: the entry is the place's"},
    {"more than 64 told", {.catalogue_len = tells_what_it_says}, "len: broken: as many as are listed, at most 64"},
    {"a tally counted anew", {.catalogue_separators = counts_the_entries}, "separators: broken: the tally as it stands"},
};

const size_t catalogue_fault_count = sizeof catalogue_faults / sizeof *catalogue_faults;

#define BY_ADDING "add: broken: a school is listed once, while there are places"
#define BY_REMOVING "remove: broken: a school that is listed is removed"
#define BY_THE_LEN "len: broken: as many as were added and not removed since"
#define BY_THE_TALLY "separators: broken: the tally is the count over all entries"
#define BY_THE_ORDER "entry: broken: the entries ascend"

const struct fault history_faults[] = {
    {"a word too many emptied", {.catalogue_empty = empties_a_word_too_many}, "pawhetino_catalogue_empty: crashed"},
    {"an entry behind the last place", {.catalogue_add = adds_behind_the_last_place}, "pawhetino_catalogue_add: crashed"},
    {"a read behind the last place", {.catalogue_remove = moves_down_what_is_behind}, "pawhetino_catalogue_remove: crashed"},
    {"a school listed twice", {.catalogue_add = adds_twice}, BY_ADDING},
    {"26 before 25", {.catalogue_add = tests_the_places_first}, BY_ADDING},
    {"full with 63", {.catalogue_add = is_full_with_63}, BY_ADDING},
    {"the last dropped for the new", {.catalogue_add = drops_the_last_for_the_new}, BY_ADDING},
    {"a removal of what is not there", {.catalogue_remove = removes_what_is_not_there}, BY_REMOVING},
    {"a school not counted", {.catalogue_add = does_not_count_the_school}, BY_THE_LEN},
    {"a removed place lost", {.catalogue_remove = loses_the_place}, BY_THE_LEN},
    {"the tally not emptied", {.catalogue_empty = leaves_the_tally}, BY_THE_TALLY},
    {"a tally not raised", {.catalogue_add = does_not_raise_the_tally}, BY_THE_TALLY},
    {"a tally of any word", {.catalogue_add = raises_the_tally_for_any_word}, BY_THE_TALLY},
    {"a tally not lowered", {.catalogue_remove = does_not_lower_the_tally}, BY_THE_TALLY},
    {"a refused addition's tally", {.catalogue_add = changes_a_word_though_refused}, BY_THE_TALLY},
    {"a refused addition's word", {.catalogue_add = takes_the_new_word_though_refused}, "broken: each school added and not"},
    {"a gap filled with the last", {.catalogue_remove = fills_the_gap_with_the_last}, BY_THE_ORDER},
    {"an entry out of turn", {.catalogue_add = adds_behind_the_others}, BY_REMOVING},
    {"the first entry for each", {.catalogue_entry = gives_the_first_entry}, BY_THE_ORDER},
    {"an entry too many", {.catalogue_entry = has_one_more}, "entry: broken: there is no further entry"},
    {"an entry too few", {.catalogue_entry = has_one_less}, "entry: broken: there are as many entries as schools"},
    {"a word's low half twice", {.catalogue_find = tells_the_low_half_twice}, "find: broken: a school has the word that it was"},
};

const size_t history_fault_count = sizeof history_faults / sizeof *history_faults;
