/* The checks of a word, the state made for it, and the functions of single bytes. */
#include <string.h>

#include "parts.h"

static void check_checks(const struct functions *f, const struct input *in) {
    uint64_t lo = in->state[PAWHETINO_STATE_LO], hi = in->state[PAWHETINO_STATE_HI];
    running = "pawhetino_format_error";
    uint32_t number = f->format_error(lo, hi);
    promise(in, number <= 14, "a documented number");
    numbers_seen.by_checks |= UINT32_C(1) << number;
    running = "pawhetino_plain_format_error";
    number = f->plain_format_error(lo, hi);
    promise(in, number <= 6 || number == 15, "a documented number");
    numbers_seen.by_checks |= UINT32_C(1) << number;
}

/* The edition is tested before the word, and a state is written where both are accepted. */
static void check_fresh(const struct functions *f, const struct input *in) {
    uint64_t lo = in->state[PAWHETINO_STATE_LO], hi = in->state[PAWHETINO_STATE_HI];
    uint64_t edition = in->state[PAWHETINO_STATE_EDITION], *state = in->lent.state;
    const uint64_t fresh[8] = {lo, hi, 0, 0, 0, 0, 0, edition};
    running = "pawhetino_fresh";
    uint32_t due = edition != 0 ? 19 : f->format_error(lo, hi);
    for (int i = 0; i < 8; i++) state[i] = UNTOUCHED;
    uint32_t number = f->fresh(lo, hi, edition, state);
    check_number(in, number, due, &numbers_seen.by_fresh);
    if (number == 0) promise(in, memcmp(state, fresh, sizeof fresh) == 0, "a fresh state is the word, zeros and the edition");
    for (int i = 0; i < 8 && number != 0; i++) promise(in, state[i] == UNTOUCHED, "a refused fresh state is not written");
}

static void check_bytes(const struct functions *f, const struct input *in) {
    uint64_t lo = in->state[PAWHETINO_STATE_LO], hi = in->state[PAWHETINO_STATE_HI];
    uint8_t c = in->value;
    running = "pawhetino_char_is_digit_const";
    promise(in, f->char_is_digit_const(c, in->radix) == is_digit_of(c, in->radix), "a digit is below the radix");
    running = "pawhetino_is_valid_ascii";
    promise(in, f->is_valid_ascii(c) == ((c >= 0x09 && c <= 0x0D) || (c >= 0x20 && c <= 0x7E)), "hex 09 to 0D and 20 to 7E");
    running = "pawhetino_is_digit";
    promise(in, f->is_digit(lo, hi, c) == is_digit_of(c, mantissa_radix(in)), "a digit of the mantissa radix");
    running = "pawhetino_is_digit_separator";
    promise(in, f->is_digit_separator(lo, hi, c) == (c != 0 && c == separator(in)), "the word's separator, never 0");
}

void check_words_and_bytes(const struct functions *f, const struct input *in) {
    check_checks(f, in);
    check_fresh(f, in);
    check_bytes(f, in);
}
