/* The calls of the readers. */
#include <string.h>

#include "parts.h"

/* These arguments are the same for all calls that have a state. */
#define GIVEN in->s, in->len, in->reader, in->lent.state

static uint64_t taken(const struct input *in) { return in->lent.answer[PAWHETINO_ANSWER_TAKEN]; }

static uint64_t passed(const struct input *in) { return in->lent.answer[PAWHETINO_ANSWER_PASSED]; }

/* How much the reader's own count has grown; the special reader has none. */
static uint64_t counted(const struct input *in) {
    int own = PAWHETINO_STATE_INTEGER + in->reader;
    return in->reader < 3 ? in->lent.state[own] - in->state[own] : 0;
}

/* Whether a call with an answer was accepted; a refused one leaves the state, and nothing is found, taken or passed. */
static bool accepted(const struct input *in, uint32_t number, uint32_t due) {
    check_kept(in);
    check_number(in, number, due, &numbers_seen.by_calls);
    if (number == 0) return true;
    promise(in, state_is_kept(in), "a refused call leaves the state");
    promise(in, in->lent.answer[0] == 0 && taken(in) == 0 && passed(in) == 0, "a refused call answers 0");
    promise(in, in->lent.answer[1] == UNTOUCHED, "a refused call leaves word 1 of the answer");
    return false;
}

/* An accepted call goes on by what it took and passed, and only its reader counts, at most what it took. */
static void check_moved(const struct input *in) {
    uint64_t from = in->state[PAWHETINO_STATE_CURSOR], to = in->lent.state[PAWHETINO_STATE_CURSOR];
    promise(in, to >= from, "the cursor does not go back");
    promise(in, to <= in->len, "the cursor stays within the buffer");
    promise(in, taken(in) <= to - from && passed(in) == to - from - taken(in), "the cursor moves by taken and passed");
    promise(in, counted(in) <= taken(in), "no more is counted than taken");
    for (int i = 0; i < 3; i++)
        promise(in, i == in->reader || in->lent.state[PAWHETINO_STATE_INTEGER + i] == in->state[PAWHETINO_STATE_INTEGER + i],
                "another reader's count stays");
}

/* A byte that is told is the buffer's, behind the separators that were passed first; where none is, its word is left. */
static void check_byte(const struct input *in, bool has) {
    uint64_t byte = in->lent.answer[PAWHETINO_ANSWER_BYTE], cursor = in->state[PAWHETINO_STATE_CURSOR];
    for (uint64_t i = 0; i < passed(in); i++)
        promise(in, separator(in) != 0 && in->s[cursor + i] == separator(in), "only separators are passed");
    promise(in, has || byte == UNTOUCHED, "without a byte its word stays as it was");
    uint64_t place = cursor + passed(in);
    promise(in, !has || (place < in->len && byte == in->s[place]), "the byte is the buffer's");
}

/* Whether a byte was found. */
static bool has_byte(const struct input *in) {
    uint64_t has = in->lent.answer[PAWHETINO_ANSWER_HAS];
    promise(in, has <= 1, "there is a byte or there is none");
    check_byte(in, has == 1);
    return has == 1;
}

static void check_peek(const struct functions *f, const struct input *in) {
    running = "pawhetino_peek";
    lend(in);
    if (!accepted(in, f->peek(GIVEN, in->lent.answer), due_of_rules(in, true))) return;
    check_moved(in);
    has_byte(in);
    promise(in, taken(in) == 0, "a peek takes nothing");
}

static void check_next(const struct functions *f, const struct input *in) {
    running = "pawhetino_next";
    lend(in);
    if (!accepted(in, f->next(GIVEN, in->lent.answer), due_of_rules(in, true))) return;
    check_moved(in);
    bool has = has_byte(in);
    bool counts = has && in->reader < 3 && flags(in) != 0 &&
                  is_digit_of((uint8_t)in->lent.answer[PAWHETINO_ANSWER_BYTE], mantissa_radix(in));
    promise(in, taken(in) == has, "a byte that is there is taken");
    promise(in, counted(in) == counts, "a reader with any flag counts a digit");
}

/* A read is a peek from the same state, but that it may take the byte. */
static void check_by_peek(const struct functions *f, const struct input *in) {
    const uint64_t *answer = in->lent.answer;
    uint64_t state[8], peeked[4] = {UNTOUCHED, UNTOUCHED, UNTOUCHED, UNTOUCHED};
    memcpy(state, in->state, sizeof state);
    promise(in, f->peek(in->s, in->len, in->reader, state, peeked) == 0, "where a read is accepted, a peek is");
    promise(in, (answer[PAWHETINO_ANSWER_READ] == PAWHETINO_READ_END) == (peeked[PAWHETINO_ANSWER_HAS] == 0),
            "the end is where a peek has no byte");
    promise(in, passed(in) == peeked[PAWHETINO_ANSWER_PASSED], "a read passes what a peek passes");
    promise(in, answer[PAWHETINO_ANSWER_BYTE] == peeked[PAWHETINO_ANSWER_BYTE], "a read meets the byte that a peek finds");
    state[PAWHETINO_STATE_CURSOR] += taken(in);
    promise(in, memcmp(in->lent.state, state, sizeof state) == 0, "a read leaves what a peek leaves, but for the byte taken");
}

static bool is_asked_for(const struct input *in, bool by_set) {
    uint8_t byte = (uint8_t)in->lent.answer[PAWHETINO_ANSWER_BYTE];
    return by_set ? in->set[byte / 64] >> (byte % 64) & 1 : byte == in->value;
}

/* Both conditional reads: by the set, or by one byte. */
static void check_read(const struct functions *f, const struct input *in, bool by_set) {
    running = by_set ? "pawhetino_read_if" : "pawhetino_read_if_value_cased";
    lend(in);
    uint32_t number = by_set ? f->read_if(GIVEN, in->lent.answer, in->lent.set)
                             : f->read_if_value_cased(GIVEN, in->lent.answer, in->value);
    if (!accepted(in, number, due_of_rules(in, true))) return;
    check_moved(in);
    uint64_t how = in->lent.answer[PAWHETINO_ANSWER_READ];
    bool ended = how == PAWHETINO_READ_END, takes = how == PAWHETINO_READ_TAKEN;
    promise(in, how <= PAWHETINO_READ_DECLINED, "a read ends in one of three ways");
    check_byte(in, !ended);
    promise(in, !ended || in->lent.state[PAWHETINO_STATE_CURSOR] == in->len, "at the end nothing is left");
    promise(in, taken(in) == takes && counted(in) == 0, "a byte is taken where the read says so, and not counted");
    promise(in, ended || takes == is_asked_for(in, by_set), "taken is a byte that was asked for, declined another");
    check_by_peek(f, in);
}

static void check_next_all(const struct functions *f, const struct input *in) {
    running = "pawhetino_next_all";
    lend(in);
    if (!accepted(in, f->next_all(GIVEN, in->lent.answer), due_of_rules(in, true))) return;
    check_moved(in);
    promise(in, in->lent.state[PAWHETINO_STATE_CURSOR] == in->len, "everything is taken");
    promise(in, in->lent.answer[0] == 0 && in->lent.answer[1] == UNTOUCHED, "there is no byte, and its word stays as it was");
}

static void check_skip_zeros(const struct functions *f, const struct input *in) {
    running = "pawhetino_skip_zeros";
    lend(in);
    if (!accepted(in, f->skip_zeros(GIVEN, in->lent.answer), due_of_rules(in, false))) return;
    check_moved(in);
    promise(in, in->lent.answer[0] == 0 && in->lent.answer[PAWHETINO_ANSWER_ZEROS] == taken(in), "the zeros are the bytes taken");
    promise(in, counted(in) == taken(in), "every zero is counted");
}

static void check_digit_run(const struct functions *f, const struct input *in) {
    running = "pawhetino_digit_run";
    struct run run;
    uint32_t due = due_of_run(in, &run);
    lend(in);
    if (!accepted(in, f->digit_run(GIVEN, in->lent.answer), due)) return;
    check_moved(in);
    const uint64_t *answer = in->lent.answer;
    promise(in, answer[PAWHETINO_ANSWER_HAS] == 1 && answer[PAWHETINO_ANSWER_VALUE] == run.value, "the value of the bytes taken");
    promise(in, taken(in) == run.taken && passed(in) == run.passed, "taken and passed are the sums of the peeks and takes");
    promise(in, memcmp(in->lent.state, run.state, sizeof run.state) == 0, "the state is the one that the last peek leaves");
}

static void check_block(const struct functions *f, const struct input *in) {
    running = "pawhetino_take_n";
    lend(in);
    if (!accepted(in, f->take_n(GIVEN, in->lent.answer, in->n), due_of_state(in, false))) return;
    check_moved(in);
    const uint64_t *answer = in->lent.answer;
    uint64_t cursor = in->state[PAWHETINO_STATE_CURSOR], left = in->len - cursor;
    bool has = flags(in) == 0;
    promise(in, answer[PAWHETINO_ANSWER_HAS] == has, "a block is given by a reader without flags");
    promise(in, answer[PAWHETINO_ANSWER_START] == (has ? cursor : UNTOUCHED), "a block begins at the cursor");
    promise(in, taken(in) == (has ? (in->n < left ? in->n : left) : 0), "as many bytes as there are, up to n");
    promise(in, passed(in) == 0 && counted(in) == 0, "a block passes nothing and counts nothing");
}

/* As lexical-util shows it. */
static uint64_t shown_count(const struct input *in) {
    const uint64_t *counts = in->state + PAWHETINO_STATE_INTEGER;
    if (in->reader == 3) return 0;
    if (flags(in) != 0) return counts[in->reader];
    return separator(in) == 0 ? in->state[PAWHETINO_STATE_CURSOR] : counts[0] + counts[1] + counts[2];
}

static void check_count(const struct functions *f, const struct input *in) {
    running = "pawhetino_current_count";
    lend(in);
    uint32_t number = f->current_count(GIVEN, in->lent.numbers[0]);
    check_kept(in);
    check_number(in, number, due_of_state(in, true), &numbers_seen.by_calls);
    promise(in, state_is_kept(in), "the state stays as it is");
    promise(in, *in->lent.numbers[0] == (number == 0 ? shown_count(in) : UNTOUCHED), "the count is the one that is shown, or left");
}

static void check_plain(const struct functions *f, const struct input *in, bool takes) {
    running = takes ? "pawhetino_plain_next" : "pawhetino_plain_peek";
    lend(in);
    size_t from = in->state[PAWHETINO_STATE_CURSOR], *cursor = in->lent.numbers[0];
    *cursor = from;
    uint32_t number = (takes ? f->plain_next : f->plain_peek)(in->s, in->len, in->reader, cursor, in->lent.answer);
    bool has = number == 0 && from < in->len;
    check_kept(in);
    check_number(in, number, in->reader > 3 ? 19 : from > in->len ? 16 : 0, &numbers_seen.by_calls);
    promise(in, *cursor == from + (takes && has), "the cursor moves past a byte that is taken");
    promise(in, in->lent.answer[PAWHETINO_ANSWER_HAS] == has && taken(in) == (takes && has) && passed(in) == 0,
            "a byte, unless at the end");
    promise(in, in->lent.answer[PAWHETINO_ANSWER_BYTE] == (has ? in->s[from] : UNTOUCHED), "the byte is the buffer's, or left");
}

/* The sums of pawhetino_next_all over the cells, each from a fresh state, to hold the column's to. */
static void sum_cells(const struct functions *f, const struct input *in, size_t sums[3]) {
    size_t start = 0;
    for (size_t k = 0; k < in->cells; k++) {
        size_t end = in->ends[k] < start ? start : in->ends[k] > in->len ? in->len : in->ends[k];
        struct input cell = *in;
        cell.s += start, cell.s_copy += start, cell.len = end - start;
        for (int i = PAWHETINO_STATE_CURSOR; i < 8; i++) cell.state[i] = 0;
        lend(&cell);
        uint32_t number = f->next_all(cell.s, cell.len, cell.reader, cell.lent.state, cell.lent.answer);
        promise(in, number == 0, "pawhetino_next_all accepts each cell");
        sums[0] += taken(&cell), sums[1] += passed(&cell), sums[2] += counted(&cell);
        start = end;
    }
}

static void check_column(const struct functions *f, const struct input *in) {
    running = "pawhetino_next_all_column";
    size_t *const *numbers = in->lent.numbers;
    lend(in);
    uint32_t number = f->next_all_column(in->s, in->len, in->ends, in->cells, in->state[PAWHETINO_STATE_LO],
                                         in->state[PAWHETINO_STATE_HI], in->reader, numbers[0], numbers[1], numbers[2]);
    size_t told[3] = {*numbers[0], *numbers[1], *numbers[2]}, sums[3] = {0, 0, 0};
    check_kept(in);
    check_number(in, number, due_of_column(in), &numbers_seen.by_calls);
    if (number == 0) sum_cells(f, in, sums);
    promise(in, told[0] == sums[0] && told[1] == sums[1] && told[2] == sums[2],
            "the sums are those of pawhetino_next_all over the cells, or 0");
}

void check_calls(const struct functions *f, const struct input *in) {
    check_peek(f, in);
    check_next(f, in);
    check_read(f, in, true);
    check_read(f, in, false);
    check_next_all(f, in);
    check_skip_zeros(f, in);
    check_digit_run(f, in);
    check_block(f, in);
    check_count(f, in);
    check_plain(f, in, false);
    check_plain(f, in, true);
    check_column(f, in);
}
