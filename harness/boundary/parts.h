/* What the files of the checks share. */
#ifndef PARTS_H
#define PARTS_H

#include "checks.h"

void promise(const struct input *in, bool holds, const char *what);

/* The number is the one that is due; it has been seen. */
void check_number(const struct input *in, uint32_t number, uint32_t due, uint32_t *seen);

/* What is lent for writing alone holds this before a call. */
#define UNTOUCHED UINT64_C(0xA5A5A5A5A5A5A5A5)

/* Before a call: the input's state and set are lent, and else only what is untouched. */
void lend(const struct input *in);

/* What no call changes: slices, set, and words 0, 1, 6 and 7 of the state. */
void check_kept(const struct input *in);

/* Whether the whole state is as it was lent. */
bool state_is_kept(const struct input *in);

/* Fields of the input's word. */
uint8_t separator(const struct input *in);
uint8_t mantissa_radix(const struct input *in);

/* Internal 1, leading 2, trailing 4, consecutive 8, of a counted reader. */
unsigned flags(const struct input *in);

/* The value of a figure or letter; other bytes have 255. */
uint32_t digit_value(uint8_t c);

/* Whether the value is below the radix; 255 is what the radixes above it go by. */
bool is_digit_of(uint8_t c, uint32_t radix);

/* The refusals that are due of calls, or 0: of any that has a state, of one that goes by rules too, and of a column. */
uint32_t due_of_state(const struct input *in, bool has_special);
uint32_t due_of_rules(const struct input *in, bool has_special);
uint32_t due_of_column(const struct input *in);

/* What a digit run comes to. */
struct run {
    uint64_t state[8], taken, passed;
    unsigned __int128 value;
};

/* The refusal that is due of a digit run, or 0, with what it comes to. */
uint32_t due_of_run(const struct input *in, struct run *run);

/* What check_all does besides check_run_ends. */
void check_words_and_bytes(const struct functions *f, const struct input *in);
void check_calls(const struct functions *f, const struct input *in);
void check_catalogue(const struct functions *f, const struct input *in);

#endif
