#include "draw_catalogue.h"

#include <string.h>

#include "chance.h"

enum { PLACES = PAWHETINO_CATALOGUE_PLACES, LARGEST_SCHOOL = 65535 };

/* The three words of a place. */
static uint64_t *place_of(uint64_t *catalogue, size_t place) {
    return catalogue + PAWHETINO_CATALOGUE_ENTRIES + PAWHETINO_ENTRY_WORDS * place;
}

/* A word that the check accepts: decimal, often with a separator, and with flags that clash with none. */
static void draw_accepted(uint64_t word[2]) {
    static const uint8_t separators[] = {0, 0, '_', '_', ',', 0x7E};
    struct pawhetino_word accepted = pawhetino_word_of(separators[below(sizeof separators)], 10, bits() & UINT64_C(0x1FF0000000F));
    word[0] = accepted.lo, word[1] = accepted.hi;
}

/* Often empty, with few, with all but one or all. */
static size_t draw_count(void) {
    switch (below(6)) {
    case 0: return 0;
    case 1: return PLACES;
    case 2: return PLACES - 1;
    case 3: return below(5);
    default: return below(PLACES + 1);
    }
}

/* A catalogue as additions and removals leave it: ascending from 1, anywhere, or up to the largest number. */
static void draw_listed(uint64_t *catalogue) {
    size_t count = draw_count(), widest = below(2) == 0 ? 3 : LARGEST_SCHOOL / PLACES;
    uint64_t school = 0;
    catalogue[PAWHETINO_CATALOGUE_LEN] = count;
    for (size_t i = 0; i < count; i++) {
        uint64_t *entry = place_of(catalogue, i);
        school += 1 + below(widest);
        entry[PAWHETINO_ENTRY_SCHOOL] = school;
        draw_accepted(entry + PAWHETINO_ENTRY_LO);
        catalogue[PAWHETINO_CATALOGUE_SEPARATORS] += (entry[PAWHETINO_ENTRY_HI] & 0xFF) != 0;
    }
    uint64_t shift = below(3) == 0 ? LARGEST_SCHOOL - school : 0;
    for (size_t i = 0; i < count; i++) place_of(catalogue, i)[PAWHETINO_ENTRY_SCHOOL] += shift;
}

/* One thing of it otherwise, as no additions and removals leave it. */
static void spoil(uint64_t *catalogue) {
    uint64_t *one = place_of(catalogue, below(PLACES)), *other = place_of(catalogue, below(PLACES));
    switch (below(6)) {
    case 0: catalogue[PAWHETINO_CATALOGUE_LEN] = any_number(PLACES); break;
    case 1: catalogue[PAWHETINO_CATALOGUE_SEPARATORS] = any_number(PLACES); break;
    case 2: one[PAWHETINO_ENTRY_SCHOOL] = other[PAWHETINO_ENTRY_SCHOOL]; break;
    case 3: one[PAWHETINO_ENTRY_SCHOOL] |= UINT64_C(1) << (16 + below(48)); break;
    case 4: one[PAWHETINO_ENTRY_SCHOOL] = bits() & LARGEST_SCHOOL; break;
    default: one[below(PAWHETINO_ENTRY_WORDS)] = bits();
    }
}

/* Any words at all, the schools mostly of 16 bits. */
static void draw_garbage(uint64_t *catalogue) {
    bool small = below(4) != 0;
    for (int i = 0; i < PAWHETINO_CATALOGUE_WORDS; i++) catalogue[i] = bits();
    for (size_t i = 0; i < PLACES && small; i++) place_of(catalogue, i)[PAWHETINO_ENTRY_SCHOOL] &= LARGEST_SCHOOL;
    catalogue[PAWHETINO_CATALOGUE_LEN] = any_number(PLACES);
    catalogue[PAWHETINO_CATALOGUE_SEPARATORS] = any_number(PLACES);
}

/* One of a place that is listed, where there is any, or the next to it; 0; any. */
static uint16_t draw_school(uint64_t *catalogue) {
    uint64_t len = catalogue[PAWHETINO_CATALOGUE_LEN], count = len < PLACES ? len : PLACES;
    uint64_t listed = count == 0 ? 1 : place_of(catalogue, below(count))[PAWHETINO_ENTRY_SCHOOL];
    switch (below(6)) {
    case 0: return 0;
    case 1: return (uint16_t)bits();
    case 2: return (uint16_t)(listed + 1);
    case 3: return (uint16_t)(listed - 1);
    default: return (uint16_t)listed;
    }
}

/* Mostly a word that is accepted; else the input's own, or one with any byte in one of its fields. */
static void draw_sheet(struct input *in) {
    uint64_t kind = below(6);
    draw_accepted(in->sheet);
    if (kind == 0) memcpy(in->sheet, in->state, sizeof in->sheet);
    if (kind == 1) in->sheet[1] ^= below(256) << 8 * below(8);
}

void draw_catalogue(struct drawn *drawn) {
    struct input *in = &drawn->input;
    uint64_t *catalogue = drawn->catalogue, kind = below(8);
    memset(catalogue, 0, sizeof drawn->catalogue);
    if (kind == 0)
        draw_garbage(catalogue);
    else
        draw_listed(catalogue);
    if (kind < 4) spoil(catalogue);
    in->school = draw_school(catalogue);
    in->place = any_number(catalogue[PAWHETINO_CATALOGUE_LEN]);
    draw_sheet(in);
    in->catalogue = catalogue;
}
