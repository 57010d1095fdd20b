#include "wrong.h"
#include "parts.h"

/* State, answer and set are plain pointers here, since a compiler that knows their length refuses a step beside them. */
#define CALL(name) static uint32_t name(const uint8_t *s, size_t len, uint8_t reader, uint64_t *state, uint64_t *answer)
#define ARGUMENTS s, len, reader, state, answer

#define READ(name) \
    static uint32_t name(const uint8_t *s, size_t len, uint8_t reader, uint64_t *state, uint64_t *answer, const uint64_t *set)

#define READ_VALUE(name) \
    static uint32_t name(const uint8_t *s, size_t len, uint8_t reader, uint64_t *state, uint64_t *answer, uint8_t value)

#define BLOCK(name) \
    static uint32_t name(const uint8_t *s, size_t len, uint8_t reader, uint64_t *state, uint64_t *answer, size_t n)

#define FRESH(name) static uint32_t name(uint64_t lo, uint64_t hi, uint64_t edition, uint64_t *state)

#define COLUMN(name)                                                                                                        \
    static uint32_t name(const uint8_t *s, size_t len, const size_t *ends, size_t cells, uint64_t lo, uint64_t hi,         \
                         uint8_t reader, size_t *taken, size_t *passed, size_t *digits)
#define COLUMN_ARGUMENTS s, len, ends, cells, lo, hi, reader, taken, passed, digits

#define RUN_END(name)                                                                                                      \
    static void name(const uint8_t *s, size_t len, uint8_t separator, size_t at, size_t *end, size_t *eights, size_t *ones)
#define RUN_END_ARGUMENTS s, len, separator, at, end, eights, ones

/* What is read only to be read. */
static volatile uint64_t seen;

/* Steps beside what is lent, and calls that do not come back. */

CALL(writes_behind_the_answer) {
    answer[4] = 0;
    return pawhetino_peek(ARGUMENTS);
}

CALL(writes_before_the_state) {
    ((uint8_t *)state)[-1] = 0;
    return pawhetino_next_all(ARGUMENTS);
}

CALL(reads_behind_the_state) {
    seen = state[8];
    return pawhetino_skip_zeros(ARGUMENTS);
}

READ(reads_behind_the_set) {
    seen = set[4];
    return pawhetino_read_if(ARGUMENTS, set);
}

CALL(reads_past_the_end) {
    seen = s[len];
    return pawhetino_peek(ARGUMENTS);
}

CALL(reads_before_the_start) {
    seen = s[-1];
    return pawhetino_next(ARGUMENTS);
}

COLUMN(reads_past_the_ends) {
    seen = ends[cells];
    return pawhetino_next_all_column(COLUMN_ARGUMENTS);
}

COLUMN(writes_behind_a_number) {
    passed[1] = 0;
    return pawhetino_next_all_column(COLUMN_ARGUMENTS);
}

RUN_END(reads_past_the_end_of_a_run) {
    seen = s[len];
    pawhetino_run_end(RUN_END_ARGUMENTS);
}

/* As where the last eight bytes of a run are read whether or not there are so many. */
RUN_END(reads_the_tail_as_eight) {
    pawhetino_run_end(RUN_END_ARGUMENTS);
    if (at < len) seen = s[at + *eights * 8 + 7];
}

RUN_END(writes_behind_the_steps) {
    ones[1] = 0;
    pawhetino_run_end(RUN_END_ARGUMENTS);
}

CALL(hangs) {
    while (len > 0) seen = s[0];
    return pawhetino_peek(ARGUMENTS);
}

/* Deeper than any stack is. The sum keeps the call from being the last thing done, which would need no stack. */
static size_t goes_deep(size_t depth) {
    volatile uint8_t here[4096];
    here[0] = 1;
    return depth == 0 ? 0 : goes_deep(depth - 1) + here[0];
}

CALL(uses_up_the_stack) {
    seen = goes_deep(SIZE_MAX);
    return pawhetino_peek(ARGUMENTS);
}

/* Writes to what is lent to be read. */

CALL(changes_the_buffer) {
    uint32_t number = pawhetino_next(ARGUMENTS);
    if (len > 0) ((uint8_t *)s)[len - 1] ^= 1;
    return number;
}

READ(changes_the_set) {
    uint32_t number = pawhetino_read_if(ARGUMENTS, set);
    ((uint64_t *)set)[3] ^= 1;
    return number;
}

COLUMN(changes_the_ends) {
    uint32_t number = pawhetino_next_all_column(COLUMN_ARGUMENTS);
    if (cells > 0) ((size_t *)ends)[0] += 1;
    return number;
}

RUN_END(changes_the_run) {
    pawhetino_run_end(RUN_END_ARGUMENTS);
    if (*end > at) ((uint8_t *)s)[at] ^= 1;
}

static uint32_t counts_into_the_state(const uint8_t *s, size_t len, uint8_t reader, const uint64_t *state, size_t *count) {
    uint32_t number = pawhetino_current_count(s, len, reader, state, count);
    ((uint64_t *)state)[PAWHETINO_STATE_EXPONENT] ^= 1;
    return number;
}

/* Wrong numbers. */

static uint32_t invents_a_number(uint64_t lo, uint64_t hi) {
    uint32_t number = pawhetino_format_error(lo, hi);
    return number == 4 ? 15 : number;
}

CALL(answers_23) {
    uint32_t number = pawhetino_next(ARGUMENTS);
    return number == 17 ? 23 : number;
}

CALL(ignores_the_edition) {
    uint64_t edition = state[PAWHETINO_STATE_EDITION];
    state[PAWHETINO_STATE_EDITION] = 0;
    uint32_t number = pawhetino_next(ARGUMENTS);
    state[PAWHETINO_STATE_EDITION] = edition;
    return number;
}

CALL(tests_the_edition_after_the_cursor) {
    uint32_t number = pawhetino_peek(ARGUMENTS);
    return number == 19 && reader <= 3 && state[PAWHETINO_STATE_CURSOR] > len ? 16 : number;
}

FRESH(makes_any_edition) {
    uint32_t number = pawhetino_fresh(lo, hi, 0, state);
    if (number == 0) state[PAWHETINO_STATE_EDITION] = edition;
    return number;
}

FRESH(tests_the_word_before_the_edition) {
    uint32_t number = pawhetino_format_error(lo, hi);
    return number != 0 ? number : pawhetino_fresh(lo, hi, edition, state);
}

CALL(refuses_the_last_value) {
    uint32_t number = pawhetino_digit_run(ARGUMENTS);
    return number == 0 && answer[PAWHETINO_ANSWER_VALUE] == UINT64_MAX ? PAWHETINO_VALUE_ABOVE_64_BITS : number;
}

/* Wrong states. */

FRESH(writes_though_refused) {
    uint32_t number = pawhetino_fresh(lo, hi, edition, state);
    if (number != 0) state[PAWHETINO_STATE_CURSOR] = 0;
    return number;
}

FRESH(leaves_word_6) {
    uint64_t kept = state[PAWHETINO_STATE_KEPT];
    uint32_t number = pawhetino_fresh(lo, hi, edition, state);
    state[PAWHETINO_STATE_KEPT] = kept;
    return number;
}

CALL(clears_word_6) {
    state[PAWHETINO_STATE_KEPT] = 0;
    return pawhetino_peek(ARGUMENTS);
}

CALL(swaps_two_counts) {
    uint32_t number = pawhetino_next(ARGUMENTS);
    uint64_t integer = state[PAWHETINO_STATE_INTEGER];
    if (number != 0 || reader != PAWHETINO_EXPONENT) return number;
    state[PAWHETINO_STATE_INTEGER] = state[PAWHETINO_STATE_FRACTION];
    state[PAWHETINO_STATE_FRACTION] = integer;
    return number;
}

CALL(changes_a_refused_state) {
    uint32_t number = pawhetino_next_all(ARGUMENTS);
    if (number != 0) state[PAWHETINO_STATE_CURSOR] = 0;
    return number;
}

CALL(takes_past_the_end) {
    uint32_t number = pawhetino_next(ARGUMENTS);
    if (number == 0 && state[PAWHETINO_STATE_CURSOR] == len) state[PAWHETINO_STATE_CURSOR] += 1;
    return number;
}

CALL(counts_every_byte) {
    uint64_t before = state[PAWHETINO_STATE_INTEGER];
    uint32_t number = pawhetino_next(ARGUMENTS);
    if (number == 0 && reader == 0) state[PAWHETINO_STATE_INTEGER] = before + answer[PAWHETINO_ANSWER_TAKEN];
    return number;
}

CALL(counts_for_another) {
    uint32_t number = pawhetino_skip_zeros(ARGUMENTS);
    if (number == 0 && reader == 0) state[PAWHETINO_STATE_FRACTION] += answer[PAWHETINO_ANSWER_TAKEN];
    return number;
}

CALL(keeps_a_refused_passing) {
    uint64_t peeked[4];
    uint32_t number = pawhetino_digit_run(ARGUMENTS);
    if (number == PAWHETINO_NO_DIGIT) pawhetino_peek(s, len, reader, state, peeked);
    return number;
}

CALL(leaves_the_state_of_a_run) {
    uint64_t moved[8];
    for (int i = 0; i < 8; i++) moved[i] = state[i];
    return pawhetino_digit_run(s, len, reader, moved, answer);
}

CALL(counts_no_digit_of_a_run) {
    uint64_t before = state[PAWHETINO_STATE_INTEGER];
    uint32_t number = pawhetino_digit_run(ARGUMENTS);
    state[PAWHETINO_STATE_INTEGER] = before;
    return number;
}

CALL(goes_back_behind_a_run) {
    uint32_t number = pawhetino_digit_run(ARGUMENTS);
    uint64_t *cursor = &state[PAWHETINO_STATE_CURSOR];
    if (number != 0 || answer[PAWHETINO_ANSWER_PASSED] == 0) return number;
    if (pawhetino_is_digit_separator(state[0], state[1], s[*cursor - 1])) *cursor -= 1, answer[PAWHETINO_ANSWER_PASSED] -= 1;
    return number;
}

CALL(takes_the_first_other_byte) {
    uint32_t number = pawhetino_digit_run(ARGUMENTS);
    uint64_t *cursor = &state[PAWHETINO_STATE_CURSOR];
    if (number == 0 && *cursor < len) *cursor += 1, answer[PAWHETINO_ANSWER_TAKEN] += 1;
    return number;
}

static uint32_t peeks_and_moves(const uint8_t *s, size_t len, uint8_t reader, size_t *cursor, uint64_t *answer) {
    uint32_t number = pawhetino_plain_peek(s, len, reader, cursor, answer);
    if (number == 0) *cursor += answer[PAWHETINO_ANSWER_HAS];
    return number;
}

/* Wrong answers. */

CALL(tells_a_byte_at_the_end) {
    uint32_t number = pawhetino_peek(ARGUMENTS);
    if (number == 0 && answer[PAWHETINO_ANSWER_HAS] == 0) answer[PAWHETINO_ANSWER_BYTE] = 0;
    return number;
}

CALL(tells_zeros_though_refused) {
    uint32_t number = pawhetino_skip_zeros(ARGUMENTS);
    if (number != 0) answer[PAWHETINO_ANSWER_ZEROS] = 0;
    return number;
}

CALL(takes_though_refused) {
    uint32_t number = pawhetino_next(ARGUMENTS);
    if (number != 0) answer[PAWHETINO_ANSWER_TAKEN] = 1;
    return number;
}

CALL(tells_a_value_though_refused) {
    uint32_t number = pawhetino_digit_run(ARGUMENTS);
    if (number == PAWHETINO_VALUE_ABOVE_64_BITS) answer[PAWHETINO_ANSWER_VALUE] = UINT64_MAX;
    return number;
}

CALL(tells_one_more) {
    uint32_t number = pawhetino_digit_run(ARGUMENTS);
    if (number == 0) answer[PAWHETINO_ANSWER_VALUE] += 1;
    return number;
}

/* Peeks and takes once more on words of its own. */
CALL(tells_the_bytes_peeked) {
    uint64_t peeked[8], step[4], value = 0;
    for (int i = 0; i < 8; i++) peeked[i] = state[i];
    uint32_t number = pawhetino_digit_run(ARGUMENTS);
    for (uint64_t i = 0; number == 0 && i < answer[PAWHETINO_ANSWER_TAKEN]; i++) {
        pawhetino_peek(s, len, reader, peeked, step);
        value = value * (state[1] >> 40 & 0xFF) + digit_value((uint8_t)step[PAWHETINO_ANSWER_BYTE]);
        pawhetino_next(s, len, reader, peeked, step);
    }
    if (number == 0) answer[PAWHETINO_ANSWER_VALUE] = value;
    return number;
}

/* Whether an accepted read ended in this way. */
static bool has_ended(uint32_t number, const uint64_t *answer, uint64_t how) {
    return number == 0 && answer[PAWHETINO_ANSWER_READ] == how;
}

READ(declines_at_the_end) {
    uint32_t number = pawhetino_read_if(ARGUMENTS, set);
    if (!has_ended(number, answer, PAWHETINO_READ_END)) return number;
    answer[PAWHETINO_ANSWER_READ] = PAWHETINO_READ_DECLINED, answer[PAWHETINO_ANSWER_BYTE] = 0;
    return number;
}

READ_VALUE(ends_where_it_declines) {
    uint64_t before = answer[PAWHETINO_ANSWER_BYTE];
    uint32_t number = pawhetino_read_if_value_cased(ARGUMENTS, value);
    if (!has_ended(number, answer, PAWHETINO_READ_DECLINED)) return number;
    answer[PAWHETINO_ANSWER_READ] = PAWHETINO_READ_END, answer[PAWHETINO_ANSWER_BYTE] = before;
    return number;
}

/* As where a read passes separators up to the end that its peek keeps. */
READ(ends_before_its_peek) {
    uint64_t before = answer[PAWHETINO_ANSWER_BYTE], *cursor = &state[PAWHETINO_STATE_CURSOR];
    uint32_t number = pawhetino_read_if(ARGUMENTS, set);
    if (!has_ended(number, answer, PAWHETINO_READ_DECLINED)) return number;
    uint64_t end = *cursor;
    while (end < len && pawhetino_is_digit_separator(state[0], state[1], s[end])) end++;
    if (end < len) return number;
    answer[PAWHETINO_ANSWER_READ] = PAWHETINO_READ_END, answer[PAWHETINO_ANSWER_BYTE] = before;
    answer[PAWHETINO_ANSWER_PASSED] += end - *cursor, *cursor = end;
    return number;
}

READ_VALUE(sees_0) {
    uint32_t number = pawhetino_read_if_value_cased(ARGUMENTS, value);
    if (has_ended(number, answer, PAWHETINO_READ_DECLINED)) answer[PAWHETINO_ANSWER_BYTE] = 0;
    return number;
}

/* The separator is told then, unless it was asked for. */
READ_VALUE(gives_the_passing_back) {
    uint32_t number = pawhetino_read_if_value_cased(ARGUMENTS, value);
    if (!has_ended(number, answer, PAWHETINO_READ_DECLINED) || answer[PAWHETINO_ANSWER_PASSED] == 0) return number;
    uint64_t cursor = state[PAWHETINO_STATE_CURSOR] - answer[PAWHETINO_ANSWER_PASSED];
    if (s[cursor] == value) return number;
    state[PAWHETINO_STATE_CURSOR] = cursor, answer[PAWHETINO_ANSWER_BYTE] = s[cursor], answer[PAWHETINO_ANSWER_PASSED] = 0;
    return number;
}

READ(takes_where_it_declines) {
    uint32_t number = pawhetino_read_if(ARGUMENTS, set);
    if (has_ended(number, answer, PAWHETINO_READ_DECLINED))
        state[PAWHETINO_STATE_CURSOR] += 1, answer[PAWHETINO_ANSWER_TAKEN] = 1;
    return number;
}

READ(takes_any_byte) {
    uint32_t number = pawhetino_read_if(ARGUMENTS, set);
    if (!has_ended(number, answer, PAWHETINO_READ_DECLINED)) return number;
    answer[PAWHETINO_ANSWER_READ] = PAWHETINO_READ_TAKEN;
    state[PAWHETINO_STATE_CURSOR] += 1, answer[PAWHETINO_ANSWER_TAKEN] = 1;
    return number;
}

READ_VALUE(declines_what_was_asked_for) {
    uint32_t number = pawhetino_read_if_value_cased(ARGUMENTS, value);
    if (!has_ended(number, answer, PAWHETINO_READ_TAKEN)) return number;
    answer[PAWHETINO_ANSWER_READ] = PAWHETINO_READ_DECLINED;
    state[PAWHETINO_STATE_CURSOR] -= 1, answer[PAWHETINO_ANSWER_TAKEN] = 0;
    return number;
}

BLOCK(takes_a_block_too_long) {
    uint32_t number = pawhetino_take_n(ARGUMENTS, n);
    if (number == 0 && answer[PAWHETINO_ANSWER_HAS] == 1 && n >= len) answer[PAWHETINO_ANSWER_TAKEN] = n;
    return number;
}

BLOCK(begins_a_block_at_0) {
    uint32_t number = pawhetino_take_n(ARGUMENTS, n);
    if (number == 0 && answer[PAWHETINO_ANSWER_HAS] == 1) answer[PAWHETINO_ANSWER_START] = 0;
    return number;
}

COLUMN(loses_a_digit) {
    uint32_t number = pawhetino_next_all_column(COLUMN_ARGUMENTS);
    if (*digits > 0) *digits -= 1;
    return number;
}

COLUMN(sums_though_refused) {
    uint32_t number = pawhetino_next_all_column(COLUMN_ARGUMENTS);
    if (number != 0) *taken = 1;
    return number;
}

RUN_END(takes_seven_for_eight) {
    pawhetino_run_end(RUN_END_ARGUMENTS);
    *eights = (*end - at) / 7;
}

RUN_END(leaves_the_tail_uncounted) {
    pawhetino_run_end(RUN_END_ARGUMENTS);
    *ones = 0;
}

RUN_END(counts_eights_in_bytes) {
    pawhetino_run_end(RUN_END_ARGUMENTS);
    *eights *= 8;
}

RUN_END(goes_singly) {
    pawhetino_run_end(RUN_END_ARGUMENTS);
    *eights = 0, *ones = *end - at;
}

/* Whether a byte behind the run ended it. */
static bool is_ended_by_a_byte(size_t len, const size_t *end) { return *end < len; }

RUN_END(counts_the_byte_behind) {
    pawhetino_run_end(RUN_END_ARGUMENTS);
    if (is_ended_by_a_byte(len, end)) *ones += 1;
}

RUN_END(overlooks_the_byte_behind) {
    pawhetino_run_end(RUN_END_ARGUMENTS);
    if (is_ended_by_a_byte(len, end)) *end += 1;
}

/* As where seven bytes of an eight are compared. */
RUN_END(overlooks_the_last_of_eight) {
    pawhetino_run_end(RUN_END_ARGUMENTS);
    if (is_ended_by_a_byte(len, end) && separator != 0 && *ones == 7) *end += 1, *eights += 1, *ones = 0;
}

/* As where seven bits of a byte are compared. */
RUN_END(overlooks_the_highest_bits) {
    size_t length = 0;
    pawhetino_run_end(RUN_END_ARGUMENTS);
    if (separator == 0 || at >= len) return;
    while (length < len - at && (s[at + length] ^ separator) % 0x80 == 0) length++;
    *end = at + length, *eights = length / 8, *ones = length % 8;
}

RUN_END(takes_0_for_a_separator) {
    size_t length = 0;
    pawhetino_run_end(RUN_END_ARGUMENTS);
    if (separator != 0 || at >= len) return;
    while (length < len - at && s[at + length] == 0) length++;
    *end = at + length, *eights = length / 8, *ones = length % 8;
}

RUN_END(clips_a_place_past_the_end) {
    pawhetino_run_end(RUN_END_ARGUMENTS);
    if (at > len) *end = len;
}

const struct fault faults[] = {
    {"a write behind the answer", {.peek = writes_behind_the_answer}, "pawhetino_peek: crashed"},
    {"a write before the state", {.next_all = writes_before_the_state}, "pawhetino_next_all: crashed"},
    {"a read behind the state", {.skip_zeros = reads_behind_the_state}, "pawhetino_skip_zeros: crashed"},
    {"a read behind the set", {.read_if = reads_behind_the_set}, "pawhetino_read_if: crashed"},
    {"a read past the buffer", {.peek = reads_past_the_end}, "pawhetino_peek: crashed"},
    {"a read before the buffer", {.next = reads_before_the_start}, "pawhetino_next: crashed"},
    {"a read past the ends", {.next_all_column = reads_past_the_ends}, "pawhetino_next_all_column: crashed"},
    {"a write behind a number", {.next_all_column = writes_behind_a_number}, "pawhetino_next_all_column: crashed"},
    {"a read past a run's buffer", {.run_end = reads_past_the_end_of_a_run}, "pawhetino_run_end: crashed"},
    {"a run's tail read as eight", {.run_end = reads_the_tail_as_eight}, "pawhetino_run_end: crashed"},
    {"a write behind the steps", {.run_end = writes_behind_the_steps}, "pawhetino_run_end: crashed"},
    {"a call that does not end", {.peek = hangs}, "pawhetino_peek: does not end"},
    {"a call without end on the stack", {.peek = uses_up_the_stack}, "pawhetino_peek: crashed"},
    {"a write to the buffer", {.next = changes_the_buffer}, "pawhetino_next: broken: the buffer stays as it is"},
    {"a write to a run", {.run_end = changes_the_run}, "pawhetino_run_end: broken: the buffer stays as it is"},
    {"a write to the set", {.read_if = changes_the_set}, "pawhetino_read_if: broken: the set stays as it is"},
    {"a write to the ends", {.next_all_column = changes_the_ends}, "broken: the ends stay as they are"},
    {"a count's write to the state", {.current_count = counts_into_the_state}, "broken: the state stays as it is"},
    {"a number of no meaning", {.format_error = invents_a_number}, "pawhetino_format_error: broken: a documented number"},
    {"the number 23", {.next = answers_23}, "pawhetino_next: broken: the number is the one that is due"},
    {"an edition ignored", {.next = ignores_the_edition}, "pawhetino_next: broken: the number is the one that is due"},
    {"the cursor before the edition", {.peek = tests_the_edition_after_the_cursor}, "pawhetino_peek: broken: the number is"},
    {"a fresh state of any edition", {.fresh = makes_any_edition}, "pawhetino_fresh: broken: the number is"},
    {"the word before the edition", {.fresh = tests_the_word_before_the_edition}, "pawhetino_fresh: broken: the number is"},
    {"the last value refused", {.digit_run = refuses_the_last_value}, "pawhetino_digit_run: broken: the number is"},
    {"a refused fresh state", {.fresh = writes_though_refused}, "broken: a refused fresh state is not written"},
    {"a fresh state's word left", {.fresh = leaves_word_6}, "broken: a fresh state is the word, zeros and the edition"},
    {"a kept word cleared", {.peek = clears_word_6}, "pawhetino_peek: broken: words 0, 1, 6 and 7 of the state"},
    {"two words of the state swapped", {.next = swaps_two_counts}, "broken: another reader's count stays"},
    {"a refused call that moves", {.next_all = changes_a_refused_state}, "broken: a refused call leaves the state"},
    {"a cursor past the end", {.next = takes_past_the_end}, "broken: the cursor stays within the buffer"},
    {"every byte counted", {.next = counts_every_byte}, "broken: a reader with any flag counts a digit"},
    {"another reader's count", {.skip_zeros = counts_for_another}, "broken: another reader's count stays"},
    {"a refused run's passing", {.digit_run = keeps_a_refused_passing}, "run: broken: a refused call leaves the state"},
    {"a run that does not move", {.digit_run = leaves_the_state_of_a_run}, "run: broken: the cursor moves by taken and passed"},
    {"a run that does not count", {.digit_run = counts_no_digit_of_a_run}, "broken: the state is the one that the last peek"},
    {"a run's last passing lost", {.digit_run = goes_back_behind_a_run}, "broken: taken and passed are the sums of the peeks"},
    {"a run's first other byte", {.digit_run = takes_the_first_other_byte}, "broken: taken and passed are the sums of the peeks"},
    {"a plain peek that moves", {.plain_peek = peeks_and_moves}, "broken: the cursor moves past a byte that is taken"},
    {"a byte told at the end", {.peek = tells_a_byte_at_the_end}, "broken: without a byte its word stays as it was"},
    {"a refused call's zeros", {.skip_zeros = tells_zeros_though_refused}, "broken: a refused call leaves word 1"},
    {"a refused call's take", {.next = takes_though_refused}, "broken: a refused call answers 0"},
    {"a refused run's value", {.digit_run = tells_a_value_though_refused}, "run: broken: a refused call leaves word 1"},
    {"a run's value and one", {.digit_run = tells_one_more}, "broken: the value of the bytes taken"},
    {"a run's bytes peeked", {.digit_run = tells_the_bytes_peeked}, "broken: the value of the bytes taken"},
    {"the end declined", {.read_if = declines_at_the_end}, "pawhetino_read_if: broken: the byte is the buffer's"},
    {"a declined read's end", {.read_if_value_cased = ends_where_it_declines}, "cased: broken: at the end nothing is left"},
    {"an end that its peek has not", {.read_if = ends_before_its_peek}, "broken: the end is where a peek has no byte"},
    {"the byte seen told as 0", {.read_if_value_cased = sees_0}, "cased: broken: the byte is the buffer's"},
    {"a declined read's passing", {.read_if_value_cased = gives_the_passing_back}, "broken: a read passes what a peek passes"},
    {"a declined read that takes", {.read_if = takes_where_it_declines}, "broken: a byte is taken where the read says so"},
    {"a byte that nobody asked for", {.read_if = takes_any_byte}, "broken: taken is a byte that was asked for"},
    {"a wanted byte declined", {.read_if_value_cased = declines_what_was_asked_for}, "cased: broken: taken is a byte that was"},
    {"a block too long", {.take_n = takes_a_block_too_long}, "pawhetino_take_n: broken: the cursor moves by"},
    {"a block's place", {.take_n = begins_a_block_at_0}, "pawhetino_take_n: broken: a block begins at the cursor"},
    {"a column's digit lost", {.next_all_column = loses_a_digit}, "broken: the sums are those of pawhetino_next_all"},
    {"a refused column's sum", {.next_all_column = sums_though_refused}, "broken: the sums are those of"},
    {"seven taken for eight", {.run_end = takes_seven_for_eight}, "broken: each eight separators are a step"},
    {"a tail uncounted", {.run_end = leaves_the_tail_uncounted}, "broken: each separator of the tail is a step"},
    {"eights counted in bytes", {.run_end = counts_eights_in_bytes}, "broken: each eight separators are a step"},
    {"a run gone through singly", {.run_end = goes_singly}, "broken: each eight separators are a step"},
    {"the byte behind counted", {.run_end = counts_the_byte_behind}, "broken: each separator of the tail is a step"},
    {"the byte behind overlooked", {.run_end = overlooks_the_byte_behind}, "broken: a run ends behind its last separator"},
    {"the last of eight overlooked", {.run_end = overlooks_the_last_of_eight}, "broken: a run ends behind its last separator"},
    {"the highest bits overlooked", {.run_end = overlooks_the_highest_bits}, "broken: a run ends behind its last separator"},
    {"0 taken for a separator", {.run_end = takes_0_for_a_separator}, "broken: a run ends behind its last separator"},
    {"a place past the end clipped", {.run_end = clips_a_place_past_the_end}, "broken: a run ends behind its last separator"},
};

const size_t fault_count = sizeof faults / sizeof *faults;
