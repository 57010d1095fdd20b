#include "parts.h"

const struct functions library = {
    .format_error = pawhetino_format_error,
    .plain_format_error = pawhetino_plain_format_error,
    .char_is_digit_const = pawhetino_char_is_digit_const,
    .is_valid_ascii = pawhetino_is_valid_ascii,
    .is_digit = pawhetino_is_digit,
    .is_digit_separator = pawhetino_is_digit_separator,
    .fresh = pawhetino_fresh,
    .peek = pawhetino_peek,
    .next = pawhetino_next,
    .next_all = pawhetino_next_all,
    .next_all_column = pawhetino_next_all_column,
    .read_if = pawhetino_read_if,
    .read_if_value_cased = pawhetino_read_if_value_cased,
    .skip_zeros = pawhetino_skip_zeros,
    .digit_run = pawhetino_digit_run,
    .take_n = pawhetino_take_n,
    .current_count = pawhetino_current_count,
    .plain_peek = pawhetino_plain_peek,
    .plain_next = pawhetino_plain_next,
    .run_end = pawhetino_run_end,
    .catalogue_empty = pawhetino_catalogue_empty,
    .catalogue_add = pawhetino_catalogue_add,
    .catalogue_remove = pawhetino_catalogue_remove,
    .catalogue_find = pawhetino_catalogue_find,
    .catalogue_separators = pawhetino_catalogue_separators,
    .catalogue_len = pawhetino_catalogue_len,
    .catalogue_entry = pawhetino_catalogue_entry,
};

const char *volatile running = "nothing";
struct numbers_seen numbers_seen;

void promise(const struct input *in, bool holds, const char *what) {
    if (!holds) report_broken(in, what);
}

void check_number(const struct input *in, uint32_t number, uint32_t due, uint32_t *seen) {
    promise(in, number == due, "the number is the one that is due");
    *seen |= UINT32_C(1) << number;
}

void check_all(const struct functions *functions, const struct input *in) {
    check_words_and_bytes(functions, in);
    check_calls(functions, in);
    check_run_ends(functions, in);
    check_catalogue(functions, in);
    running = "nothing";
}
