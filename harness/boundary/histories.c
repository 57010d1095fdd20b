#include "histories.h"

#include "parts.h"

/* Four calls, each of one of three schools: an addition with a separator, one without, a removal. */
enum { CALLS = 4, SCHOOLS = 3, KINDS = 3, PLACES = PAWHETINO_CATALOGUE_PLACES };

/* How many are there before: none, or so many that two places are left, or one. */
static const size_t others[] = {0, PLACES - 2, PLACES - 1};
enum { STARTS = sizeof others / sizeof *others };

/* The schools of a history: the three, which belong between the others, before and behind them, and then the others. */
static struct school {
    uint16_t number;
    bool is_listed;
    uint8_t separator;
} schools[SCHOOLS + PLACES] = {{.number = 3}, {.number = 1}, {.number = UINT16_MAX}};

/* One of so many choices, which the number then goes without. */
static size_t choose(size_t *number, size_t choices) {
    size_t chosen = *number % choices;
    *number /= choices;
    return chosen;
}

bool history(struct drawn *drawn, uint64_t number) {
    drawn->input = (struct input){.s_copy = drawn->bytes, .ends_copy = drawn->ends, .n = number};
    for (int i = 0; i < CALLS; i++) number /= SCHOOLS * KINDS;
    return number < STARTS;
}

/* The low half has the school in bits that no check looks at, so that another school's word shows. */
static struct pawhetino_word word_of(const struct school *school) {
    return pawhetino_word_of(school->separator, 10, (uint64_t)school->number << 15);
}

/* The counts are taken anew each time, over all. */
static size_t count_listed(void) {
    size_t count = 0;
    for (size_t i = 0; i < SCHOOLS + PLACES; i++) count += schools[i].is_listed;
    return count;
}

static size_t count_separators(void) {
    size_t count = 0;
    for (size_t i = 0; i < SCHOOLS + PLACES; i++) count += schools[i].is_listed && schools[i].separator != 0;
    return count;
}

static void add(const struct functions *f, const struct input *in, struct school *school, uint8_t separator) {
    struct school added = {school->number, true, separator};
    struct pawhetino_word word = word_of(&added);
    uint32_t due = school->is_listed ? 25 : count_listed() == PLACES ? 26 : 0;
    running = "pawhetino_catalogue_add";
    uint32_t number = f->catalogue_add(in->lent.catalogue, school->number, word.lo, word.hi);
    promise(in, number == due, "a school is listed once, while there are places");
    if (number == 0) *school = added;
}

static void take_off(const struct functions *f, const struct input *in, struct school *school) {
    running = "pawhetino_catalogue_remove";
    uint32_t number = f->catalogue_remove(in->lent.catalogue, school->number);
    promise(in, number == (school->is_listed ? 0 : 27), "a school that is listed is removed");
    school->is_listed = false;
}

static void check_counts(const struct functions *f, const struct input *in) {
    running = "pawhetino_catalogue_len";
    promise(in, f->catalogue_len(in->lent.catalogue) == count_listed(), "as many as were added and not removed since");
    running = "pawhetino_catalogue_separators";
    promise(in, f->catalogue_separators(in->lent.catalogue) == count_separators(), "the tally is the count over all entries");
}

/* Whether an entry is this school's. */
static bool is_entry_of(const struct school *school, const uint64_t *entry) {
    struct pawhetino_word word = word_of(school);
    return school->is_listed && entry[PAWHETINO_ENTRY_SCHOOL] == school->number && entry[PAWHETINO_ENTRY_LO] == word.lo &&
           entry[PAWHETINO_ENTRY_HI] == word.hi;
}

/* In as many entries as there are schools each has one. */
static void check_listing(const struct functions *f, const struct input *in) {
    size_t count = count_listed(), found = 0;
    uint64_t *entry = in->lent.entry, last = 0;
    running = "pawhetino_catalogue_entry";
    for (size_t i = 0; i < count; i++) {
        promise(in, f->catalogue_entry(in->lent.catalogue, i, entry) == 0, "there are as many entries as schools");
        promise(in, entry[PAWHETINO_ENTRY_SCHOOL] > last, "the entries ascend");
        last = entry[PAWHETINO_ENTRY_SCHOOL];
        for (size_t k = 0; k < SCHOOLS + PLACES; k++) found += is_entry_of(&schools[k], entry);
    }
    promise(in, found == count, "each school added and not removed since, once with its word");
    promise(in, f->catalogue_entry(in->lent.catalogue, count, entry) == 27, "there is no further entry");
}

static void check_words(const struct functions *f, const struct input *in) {
    uint64_t *word = in->lent.word;
    running = "pawhetino_catalogue_find";
    for (size_t i = 0; i < SCHOOLS; i++) {
        struct pawhetino_word added = word_of(&schools[i]);
        uint32_t number = f->catalogue_find(in->lent.catalogue, schools[i].number, word);
        promise(in, number == (schools[i].is_listed ? 0 : 27), "a school that is listed is found");
        promise(in, number != 0 || (word[0] == added.lo && word[1] == added.hi), "a school has the word that it was added with");
    }
}

/* Every second of the others has a separator. */
static void start_with(const struct functions *f, const struct input *in, size_t count) {
    for (size_t i = 0; i < SCHOOLS + PLACES; i++) schools[i].is_listed = false;
    for (size_t i = 0; i < PLACES; i++) schools[SCHOOLS + i].number = (uint16_t)(2 * i + 2);
    running = "pawhetino_catalogue_empty";
    for (int i = 0; i < PAWHETINO_CATALOGUE_WORDS; i++) in->lent.catalogue[i] = UNTOUCHED;
    f->catalogue_empty(in->lent.catalogue);
    for (size_t i = 0; i < count; i++) add(f, in, &schools[SCHOOLS + i], i % 2 == 0 ? '_' : 0);
}

void check_history(const struct functions *f, const struct input *in) {
    size_t number = in->n, calls[CALLS];
    for (int i = 0; i < CALLS; i++) calls[i] = choose(&number, SCHOOLS * KINDS);
    start_with(f, in, others[number]);
    for (int i = 0; i < CALLS; i++) {
        struct school *school = &schools[choose(&calls[i], SCHOOLS)];
        if (calls[i] == 0)
            take_off(f, in, school);
        else
            add(f, in, school, calls[i] == 1 ? '_' : 0);
        check_counts(f, in);
    }
    check_listing(f, in);
    check_words(f, in);
}
