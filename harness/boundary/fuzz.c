/* The checks of checks.c for libFuzzer: the input's bytes are a word, a reader, a state, further arguments, a catalogue, ends and a
 * buffer.
 * The library is not built to be watched, so that besides the branches of the checks themselves only what its peeks do is told to
 * the fuzzer: flags, first or later, how many separators passed, and what kind of byte was found.
 *
 *   make fuzz [SEED=1]
 */
#include <stdio.h>
#include <stdlib.h>
#include <string.h>

#include "checks.h"
#include "lay.h"

/* What the fuzzer tries to make nonzero, beside the branches that it sees. */
__attribute__((section("__libfuzzer_extra_counters"))) static uint8_t behaviours[16 * 4 * 2 * 4 * 4];

_Noreturn void report_broken(const struct input *in, const char *promise) {
    fprintf(stderr, "fuzz: %s: broken: %s; reader %u, lo 0x%llX, hi 0x%llX, %zu bytes\n", running, promise, in->reader,
            (unsigned long long)in->state[0], (unsigned long long)in->state[1], in->len);
    abort();
}

/* The next bytes of the fuzzer's input; behind its end all are 0. */
static const uint8_t *data_left;
static size_t size_left;

static uint64_t number(size_t bytes) {
    uint64_t number = 0;
    for (size_t i = 0; i < bytes; i++) {
        uint64_t byte = size_left > 0 ? *data_left : 0;
        if (size_left > 0) data_left++, size_left--;
        number |= byte << 8 * i;
    }
    return number;
}

static void note_peek(const struct input *in) {
    uint64_t state[8], answer[4] = {0}, lo = in->state[PAWHETINO_STATE_LO], hi = in->state[PAWHETINO_STATE_HI];
    memcpy(state, in->state, sizeof state);
    if (pawhetino_peek(in->s, in->len, in->reader, state, answer) != 0) return;
    uint64_t own = lo >> (32 + in->reader), byte = answer[PAWHETINO_ANSWER_BYTE], passed = answer[PAWHETINO_ANSWER_PASSED];
    size_t flags = (own & 1) | (own >> 2 & 2) | (own >> 4 & 4) | (own >> 6 & 8);
    size_t later = in->reader < 3 && in->state[PAWHETINO_STATE_INTEGER + in->reader] > 0;
    size_t found = answer[PAWHETINO_ANSWER_HAS] == 0 ? 0 : pawhetino_is_digit(lo, hi, byte) ? 1 : byte == (hi & 0xFF) ? 2 : 3;
    size_t some = passed < 3 ? passed : 3;
    behaviours[((((flags * 4 + in->reader) * 2 + later) * 4) + some) * 4 + found] = 1;
}

/* A catalogue of few bytes: schools of up to 24 bits, each with a separator or none, and a word that is often accepted. */
static void give_catalogue(struct input *in, uint64_t *catalogue) {
    memset(catalogue, 0, PAWHETINO_CATALOGUE_WORDS * sizeof *catalogue);
    catalogue[PAWHETINO_CATALOGUE_LEN] = number(1), catalogue[PAWHETINO_CATALOGUE_SEPARATORS] = number(1);
    uint64_t *entry = catalogue + PAWHETINO_CATALOGUE_ENTRIES;
    for (uint64_t left = number(1) % (PAWHETINO_CATALOGUE_PLACES + 1); left > 0; left--, entry += PAWHETINO_ENTRY_WORDS)
        entry[PAWHETINO_ENTRY_SCHOOL] = number(3), entry[PAWHETINO_ENTRY_HI] = number(1);
    struct pawhetino_word word = pawhetino_word_of((uint8_t)number(1), 10, 0);
    bool own = number(1) % 2 == 1;
    in->sheet[0] = own ? in->state[PAWHETINO_STATE_LO] : word.lo;
    in->sheet[1] = own ? in->state[PAWHETINO_STATE_HI] : word.hi;
    in->school = (uint16_t)number(2), in->place = number(1), in->catalogue = catalogue;
}

int LLVMFuzzerTestOneInput(const uint8_t *data, size_t size) {
    size_t ends[MOST_CELLS];
    uint64_t catalogue[PAWHETINO_CATALOGUE_WORDS];
    data_left = data, size_left = size;
    struct input in;
    in.state[PAWHETINO_STATE_LO] = number(8), in.state[PAWHETINO_STATE_HI] = number(8);
    in.reader = (uint8_t)number(1), in.value = (uint8_t)number(1);
    in.state[PAWHETINO_STATE_CURSOR] = number(2);
    for (int i = PAWHETINO_STATE_INTEGER; i <= PAWHETINO_STATE_KEPT; i++) in.state[i] = number(1);
    in.state[PAWHETINO_STATE_EDITION] = number(1) / 0xF0;
    in.n = number(2), in.radix = (uint32_t)number(2);
    for (int i = 0; i < 4; i++) in.set[i] = number(8);
    give_catalogue(&in, catalogue);
    in.cells = number(1) % (MOST_CELLS + 1);
    for (size_t i = 0; i < in.cells; i++) ends[i] = number(2);
    in.len = size_left < LONGEST_BUFFER ? size_left : LONGEST_BUFFER;
    in.s_copy = data_left, in.ends_copy = ends;
    for (int at_end = 0; at_end < 2; at_end++) {
        lay_against_pages(&in, at_end);
        check_all(&library, &in);
    }
    note_peek(&in);
    return 0;
}
