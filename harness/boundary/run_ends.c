/* The end of a run of separators, held to a count by single bytes. */
#include "parts.h"

static size_t run_length(const struct input *in, uint8_t separator, size_t at) {
    size_t length = 0;
    if (separator == 0 || at >= in->len) return 0;
    while (length < in->len - at && in->s_copy[at + length] == separator) length++;
    return length;
}

static void check_run_end(const struct functions *f, const struct input *in, uint8_t separator, size_t at) {
    running = "pawhetino_run_end";
    size_t length = run_length(in, separator, at), *const *numbers = in->lent.numbers;
    lend(in);
    f->run_end(in->s, in->len, separator, at, numbers[0], numbers[1], numbers[2]);
    check_kept(in);
    promise(in, *numbers[0] == at + length, "a run ends behind its last separator");
    promise(in, *numbers[1] == length / 8, "each eight separators are a step");
    promise(in, *numbers[2] == length % 8, "each separator of the tail is a step");
}

/* The word's own separator, none, and any byte. */
void check_run_ends(const struct functions *f, const struct input *in) {
    const uint8_t separators[] = {separator(in), 0, in->value};
    for (size_t i = 0; i < sizeof separators; i++) {
        check_run_end(f, in, separators[i], in->n);
        check_run_end(f, in, separators[i], in->state[PAWHETINO_STATE_CURSOR]);
    }
}
