/* What a digit run comes to, by peeks and takes of the library and a fold of our own. */
#include <string.h>

#include "parts.h"

/* One more peek or take, from the state that the last one left: whether it finds a digit. */
static bool finds_digit(const struct input *in, struct run *run, typeof(pawhetino_peek) *call, uint8_t *byte) {
    uint64_t answer[4] = {0};
    uint32_t number = call(in->s, in->len, in->reader, run->state, answer);
    promise(in, number == 0, "each peek and take of a run is accepted");
    run->taken += answer[PAWHETINO_ANSWER_TAKEN];
    run->passed += answer[PAWHETINO_ANSWER_PASSED];
    *byte = (uint8_t)answer[PAWHETINO_ANSWER_BYTE];
    return answer[PAWHETINO_ANSWER_HAS] == 1 &&
           pawhetino_is_digit(in->state[PAWHETINO_STATE_LO], in->state[PAWHETINO_STATE_HI], *byte);
}

/* A value above 64 bits stays above them, whatever digits follow, and is left as it is. */
static unsigned __int128 fold(unsigned __int128 value, uint8_t radix, uint8_t byte) {
    return value > UINT64_MAX ? value : value * radix + digit_value(byte);
}

/* The value goes by the bytes taken: where the separator is a digit, a take may pass the one that was peeked. */
static struct run run_by_steps(const struct input *in) {
    struct run run = {.value = 0};
    uint8_t byte;
    memcpy(run.state, in->state, sizeof run.state);
    while (finds_digit(in, &run, pawhetino_peek, &byte)) {
        bool takes_digit = finds_digit(in, &run, pawhetino_next, &byte);
        promise(in, takes_digit, "where a digit is peeked, one is taken");
        run.value = fold(run.value, mantissa_radix(in), byte);
    }
    return run;
}

uint32_t due_of_run(const struct input *in, struct run *run) {
    uint32_t due = due_of_rules(in, false);
    if (due != 0) return due;
    *run = run_by_steps(in);
    return run->taken == 0 ? 23 : run->value > UINT64_MAX ? 24 : 0;
}
