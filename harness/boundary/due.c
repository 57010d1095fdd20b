/* What the word says to a reader, and the refusals that are due. The numbers are document 01's. */
#include "parts.h"

uint8_t separator(const struct input *in) { return in->state[PAWHETINO_STATE_HI] & 0xFF; }

uint8_t mantissa_radix(const struct input *in) { return in->state[PAWHETINO_STATE_HI] >> 40 & 0xFF; }

unsigned flags(const struct input *in) {
    uint64_t own = in->state[PAWHETINO_STATE_LO] >> (32 + in->reader);
    return (own & 1) | (own >> 2 & 2) | (own >> 4 & 4) | (own >> 6 & 8);
}

uint32_t digit_value(uint8_t c) {
    if (c >= '0' && c <= '9') return c - '0';
    if (c >= 'A' && c <= 'Z') return c - 'A' + 10;
    if (c >= 'a' && c <= 'z') return c - 'a' + 10;
    return 255;
}

bool is_digit_of(uint8_t c, uint32_t radix) { return digit_value(c) < radix; }

/* Whether the counts together exceed the cursor; their sum may be more than a number holds. */
static bool counts_exceed(const struct input *in) {
    uint64_t left = in->state[PAWHETINO_STATE_CURSOR];
    for (int i = PAWHETINO_STATE_INTEGER; i <= PAWHETINO_STATE_EXPONENT; i++) {
        if (in->state[i] > left) return true;
        left -= in->state[i];
    }
    return false;
}

static uint32_t consecutive_alone(const struct input *in) { return in->reader < 3 && flags(in) == 8 ? 12 + in->reader : 0; }

uint32_t due_of_state(const struct input *in, bool has_special) {
    if (in->reader > 3 || in->state[PAWHETINO_STATE_EDITION] != 0) return 19;
    if (in->state[PAWHETINO_STATE_CURSOR] > in->len) return 16;
    if (counts_exceed(in)) return 17;
    return in->reader == 3 && !has_special ? 18 : 0;
}

uint32_t due_of_rules(const struct input *in, bool has_special) {
    uint32_t due = due_of_state(in, has_special);
    return due != 0 ? due : consecutive_alone(in);
}

uint32_t due_of_column(const struct input *in) { return in->reader > 3 ? 19 : consecutive_alone(in); }
