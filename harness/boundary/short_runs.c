#include "short_runs.h"

#include <string.h>

/* Runs of up to five eights, behind up to two. */
enum { LONGEST_RUN = 40, LAST_PLACE = 16 };

/* What follows a run: nothing, then a byte that is a separator but for one bit, for each bit, alone or with a rest behind it. */
enum { BITS = 8, BEHIND = 1 + 2 * BITS };

/* The rest is separators again, enough that a run which goes on behind the byte shows, also by an eight. */
enum { REST = 13 };

/* A usual one; the lowest bit alone, the highest alone, all bits; and 0, which stands for none. */
static const uint8_t separators[] = {'_', 0x01, 0x80, 0xFF, 0};

/* One of so many choices, which the number then goes without. */
static size_t choose(uint64_t *number, uint64_t choices) {
    size_t chosen = *number % choices;
    *number /= choices;
    return chosen;
}

static void put(struct drawn *drawn, uint8_t byte, size_t count) {
    memset(drawn->bytes + drawn->input.len, byte, count);
    drawn->input.len += count;
}

bool short_run(struct drawn *drawn, uint64_t number) {
    struct input *in = &drawn->input;
    uint8_t separator = separators[choose(&number, sizeof separators)];
    size_t length = choose(&number, LONGEST_RUN + 1), place = choose(&number, LAST_PLACE + 1), behind = choose(&number, BEHIND);
    uint8_t other = separator ^ 1 << behind % BITS;
    bool in_separators = choose(&number, 2) == 1;
    *in = (struct input){.s_copy = drawn->bytes, .ends_copy = drawn->ends, .n = place, .value = other};
    in->state[PAWHETINO_STATE_HI] = separator;
    put(drawn, in_separators ? separator : other, place);
    put(drawn, separator, length);
    if (behind > 0) put(drawn, other, 1);
    if (behind > BITS) put(drawn, separator, REST);
    in->state[PAWHETINO_STATE_CURSOR] = in_separators ? 0 : in->len + 1;
    return number == 0;
}
