#include "draw.h"

#include "chance.h"
#include "draw_catalogue.h"

/* A likely separator or radix, or any byte. */
static uint8_t separator(void) {
    static const uint8_t likely[] = {'_', '_', '_', ',', '\'', 0, '1', 'a', 0xFF};
    return below(4) == 0 ? (uint8_t)bits() : likely[below(sizeof likely)];
}

static uint8_t radix(void) {
    static const uint8_t likely[] = {10, 10, 10, 16, 2, 36, 8, 0, 255};
    return below(4) == 0 ? (uint8_t)bits() : likely[below(sizeof likely)];
}

/* Any 128 bits; mostly with a likely separator and mantissa radix, since else hardly a byte would be a separator or a digit, and
 * often with nothing else in the upper half, since else hardly a check would come to its later lines. */
static void draw_word(uint64_t *lo, uint64_t *hi) {
    *lo = bits();
    *hi = bits();
    if (below(8) == 0) return;
    *hi &= below(2) == 0 ? 0 : ~(UINT64_C(0xFF) << 40 | 0xFF);
    *hi |= (uint64_t)radix() << 40 | separator();
    /* Equal separator and prefix. */
    if (below(8) == 0) *hi |= (*hi & 0xFF) << 24;
    /* Few flags, so that many readers have one or none. */
    if (below(2) == 0) *lo &= bits() & bits();
}

/* The word's separator, a figure or letter, or any byte. */
static uint8_t draw_byte(const struct input *in, uint64_t separators) {
    static const uint8_t likely[] = "0000123456789abfzAZ.+-e";
    if (below(100) < separators) return in->state[PAWHETINO_STATE_HI] & 0xFF;
    return below(8) == 0 ? (uint8_t)bits() : likely[below(sizeof likely - 1)];
}

/* Mostly up to 300 bytes, often few, sometimes thousands. */
static size_t draw_length(void) {
    uint64_t kind = below(200);
    if (kind == 0) return below(LONGEST_BUFFER + 1);
    return kind < 120 ? below(12) : below(301);
}

static void draw_buffer(struct drawn *drawn) {
    static const uint64_t mixtures[] = {10, 30, 60, 95};
    uint64_t separators = mixtures[below(4)];
    drawn->input.len = draw_length();
    for (size_t i = 0; i < drawn->input.len; i++) drawn->bytes[i] = draw_byte(&drawn->input, separators);
}

/* As many as 2 to the power of 64 has in radix 2, and zeros. */
enum { MOST_DIGITS = 80 };

/* The digits of a number about the largest of 64 bits, lowest first, with some zeros above them: how many. */
static size_t draw_digits(uint8_t radix, uint8_t digits[MOST_DIGITS]) {
    unsigned __int128 left = (unsigned __int128)UINT64_MAX + below(3) - 1;
    size_t count = 0;
    for (; count < MOST_DIGITS && (left > 0 || below(2) == 0); left /= radix)
        digits[count++] = (uint8_t)"0123456789abcdefghijklmnopqrstuvwxyz"[left % radix];
    return count;
}

/* In place of buffer and cursor, a fresh cell of such digits, often with separators between: else hardly a digit run would come to
 * the last value that it tells. */
static void draw_large_number(struct drawn *drawn) {
    struct input *in = &drawn->input;
    uint8_t digits[MOST_DIGITS], radix = in->state[PAWHETINO_STATE_HI] >> 40 & 0xFF;
    if (radix < 2 || radix > 36) return;
    bool grouped = below(2) == 0;
    in->len = 0;
    for (size_t i = draw_digits(radix, digits); i > 0; i--) {
        drawn->bytes[in->len++] = digits[i - 1];
        if (grouped && below(8) == 0) drawn->bytes[in->len++] = in->state[PAWHETINO_STATE_HI] & 0xFF;
    }
    for (int i = PAWHETINO_STATE_CURSOR; i <= PAWHETINO_STATE_EXPONENT; i++) in->state[i] = 0;
}

/* Mostly a cursor and counts that no call refuses. */
static void draw_cursor_and_counts(struct input *in) {
    bool admitted = below(10) != 0;
    uint64_t cursor = admitted ? below(in->len + 1) : any_number(in->len), left = cursor;
    in->state[PAWHETINO_STATE_CURSOR] = cursor;
    for (int i = PAWHETINO_STATE_INTEGER; i <= PAWHETINO_STATE_EXPONENT; i++) {
        in->state[i] = admitted ? (below(2) == 0 ? 0 : below(left + 1)) : any_number(cursor);
        left -= admitted ? in->state[i] : 0;
    }
}

/* Any word to be kept, and mostly the edition that there is; others differ from it in any bit or in one. */
static void draw_kept(struct input *in) {
    in->state[PAWHETINO_STATE_KEPT] = below(2) == 0 ? 0 : bits();
    in->state[PAWHETINO_STATE_EDITION] = below(12) != 0 ? 0 : below(4) == 0 ? bits() : UINT64_C(1) << below(64);
}

/* Mostly ends in order; else any numbers: before the last one, past the buffer, the largest. */
static void draw_ends(struct drawn *drawn) {
    struct input *in = &drawn->input;
    size_t last = 0;
    bool in_order = below(2) == 0;
    in->cells = below(4) == 0 ? below(3) : below(MOST_CELLS + 1);
    for (size_t i = 0; i < in->cells; i++) {
        size_t left = in->len - last;
        if (in_order) last += left == 0 ? 0 : below(left < 9 ? left + 1 : 9);
        drawn->ends[i] = in_order ? last : any_number(in->len);
    }
}

void draw(struct drawn *drawn, uint64_t seed, uint64_t round) {
    struct input *in = &drawn->input;
    start_chance(seed, round);
    draw_word(&in->state[PAWHETINO_STATE_LO], &in->state[PAWHETINO_STATE_HI]);
    draw_buffer(drawn);
    draw_cursor_and_counts(in);
    if (below(16) == 0) draw_large_number(drawn);
    draw_kept(in);
    draw_ends(drawn);
    in->reader = below(12) == 0 ? (uint8_t)bits() : (uint8_t)below(4);
    for (int i = 0; i < 4; i++) in->set[i] = below(3) == 0 ? 0 : bits();
    in->value = below(2) == 0 && in->len > 0 ? drawn->bytes[below(in->len)] : (uint8_t)bits();
    in->radix = below(4) == 0 ? (uint32_t)bits() : (uint32_t)below(300);
    in->n = any_number(in->len);
    draw_catalogue(drawn);
    in->s_copy = drawn->bytes;
    in->ends_copy = drawn->ends;
}
