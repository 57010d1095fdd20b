/* Pawhetino for C and C++: the functions of target/staticlib/libexport.a. Each is proved to answer as documents 01 and 02 define,
 * for all values of its arguments.
 *
 * Every call asks the same of its caller, about pointers: none is null, also where a length is 0; each is aligned for its type, and
 * valid for as many elements as the length beside it or its array type says, or for one; nothing that is written overlaps anything
 * else that is given; and nobody else writes to any of it during the call.
 */
#ifndef PAWHETINO_H
#define PAWHETINO_H

#include <stdbool.h>
#include <stddef.h>
#include <stdint.h>

#ifdef __cplusplus
extern "C" {
#endif

/* The format word: 128 bits in two halves. The low half has the flags, of which these are masks. */
#define PAWHETINO_REQUIRED_INTEGER_DIGITS (UINT64_C(1) << 0)
#define PAWHETINO_REQUIRED_FRACTION_DIGITS (UINT64_C(1) << 1)
#define PAWHETINO_REQUIRED_EXPONENT_DIGITS (UINT64_C(1) << 2)
#define PAWHETINO_REQUIRED_MANTISSA_DIGITS (UINT64_C(1) << 3)
#define PAWHETINO_NO_POSITIVE_MANTISSA_SIGN (UINT64_C(1) << 4)
#define PAWHETINO_REQUIRED_MANTISSA_SIGN (UINT64_C(1) << 5)
#define PAWHETINO_NO_EXPONENT_NOTATION (UINT64_C(1) << 6)
#define PAWHETINO_NO_POSITIVE_EXPONENT_SIGN (UINT64_C(1) << 7)
#define PAWHETINO_REQUIRED_EXPONENT_SIGN (UINT64_C(1) << 8)
#define PAWHETINO_NO_SPECIAL (UINT64_C(1) << 10)
#define PAWHETINO_CASE_SENSITIVE_SPECIAL (UINT64_C(1) << 11)
#define PAWHETINO_REQUIRED_EXPONENT_NOTATION (UINT64_C(1) << 14)

/* Where a reader may pass separators: between digits, before them, behind them; and whether several at once. */
#define PAWHETINO_INTEGER_INTERNAL (UINT64_C(1) << 32)
#define PAWHETINO_FRACTION_INTERNAL (UINT64_C(1) << 33)
#define PAWHETINO_EXPONENT_INTERNAL (UINT64_C(1) << 34)
#define PAWHETINO_INTEGER_LEADING (UINT64_C(1) << 35)
#define PAWHETINO_FRACTION_LEADING (UINT64_C(1) << 36)
#define PAWHETINO_EXPONENT_LEADING (UINT64_C(1) << 37)
#define PAWHETINO_INTEGER_TRAILING (UINT64_C(1) << 38)
#define PAWHETINO_FRACTION_TRAILING (UINT64_C(1) << 39)
#define PAWHETINO_EXPONENT_TRAILING (UINT64_C(1) << 40)
#define PAWHETINO_INTEGER_CONSECUTIVE (UINT64_C(1) << 41)
#define PAWHETINO_FRACTION_CONSECUTIVE (UINT64_C(1) << 42)
#define PAWHETINO_EXPONENT_CONSECUTIVE (UINT64_C(1) << 43)
#define PAWHETINO_SPECIAL_DIGIT_SEPARATOR (UINT64_C(1) << 44)

/* The high half has these bytes, each from its bit on up. Separator, prefix and suffix are 0 for none; an exponent base or radix
 * of 0 means the mantissa radix. */
#define PAWHETINO_DIGIT_SEPARATOR_SHIFT 0
#define PAWHETINO_BASE_PREFIX_SHIFT 24
#define PAWHETINO_BASE_SUFFIX_SHIFT 32
#define PAWHETINO_MANTISSA_RADIX_SHIFT 40
#define PAWHETINO_EXPONENT_BASE_SHIFT 48
#define PAWHETINO_EXPONENT_RADIX_SHIFT 56

struct pawhetino_word {
    uint64_t lo, hi;
};

/* A word of a separator, a mantissa radix and flags joined by |. Its other bytes are 0. */
static inline struct pawhetino_word pawhetino_word_of(uint8_t separator, uint8_t mantissa_radix, uint64_t flags) {
    struct pawhetino_word word;
    word.lo = flags;
    word.hi = (uint64_t)separator << PAWHETINO_DIGIT_SEPARATOR_SHIFT | (uint64_t)mantissa_radix << PAWHETINO_MANTISSA_RADIX_SHIFT;
    return word;
}

/* The numbers that are returned: 0, or why a word or a call is refused. 20 to 22 come from call scripts alone. */
#define PAWHETINO_SUCCESS 0
#define PAWHETINO_INVALID_MANTISSA_RADIX 1
#define PAWHETINO_INVALID_EXPONENT_BASE 2
#define PAWHETINO_INVALID_EXPONENT_RADIX 3
#define PAWHETINO_INVALID_DIGIT_SEPARATOR 4
#define PAWHETINO_INVALID_BASE_PREFIX 5
#define PAWHETINO_INVALID_BASE_SUFFIX 6
#define PAWHETINO_INVALID_PUNCTUATION 7
#define PAWHETINO_INVALID_EXPONENT_FLAGS 8
#define PAWHETINO_INVALID_MANTISSA_SIGN 9
#define PAWHETINO_INVALID_EXPONENT_SIGN 10
#define PAWHETINO_INVALID_SPECIAL 11
#define PAWHETINO_INVALID_CONSECUTIVE_INTEGER 12
#define PAWHETINO_INVALID_CONSECUTIVE_FRACTION 13
#define PAWHETINO_INVALID_CONSECUTIVE_EXPONENT 14
#define PAWHETINO_INVALID_FLAGS 15
#define PAWHETINO_CURSOR_PAST_END 16
#define PAWHETINO_COUNTS_EXCEED_CURSOR 17
#define PAWHETINO_NOT_BY_SPECIAL 18
#define PAWHETINO_UNKNOWN 19 /* reader, edition or kind of record */
#define PAWHETINO_RECORD_CUT_SHORT 20
#define PAWHETINO_OUT_OF_TURN 21
#define PAWHETINO_TEXT_FULL 22
#define PAWHETINO_NO_DIGIT 23
#define PAWHETINO_VALUE_ABOVE_64_BITS 24
#define PAWHETINO_SCHOOL_ZERO_OR_LISTED 25
#define PAWHETINO_CATALOGUE_FULL 26
#define PAWHETINO_SCHOOL_NOT_LISTED 27

/* Such a number in words. */
static inline const char *pawhetino_number_words(uint32_t number) {
    switch (number) {
    case PAWHETINO_SUCCESS: return "accepted";
    case PAWHETINO_INVALID_MANTISSA_RADIX: return "mantissa radix outside 2 to 36";
    case PAWHETINO_INVALID_EXPONENT_BASE: return "exponent base outside 2 to 36";
    case PAWHETINO_INVALID_EXPONENT_RADIX: return "exponent radix outside 2 to 36";
    case PAWHETINO_INVALID_DIGIT_SEPARATOR: return "separator not a valid control byte";
    case PAWHETINO_INVALID_BASE_PREFIX: return "base prefix not a valid control byte";
    case PAWHETINO_INVALID_BASE_SUFFIX: return "base suffix not a valid control byte";
    case PAWHETINO_INVALID_PUNCTUATION: return "two of separator, base prefix and base suffix are equal and not 0";
    case PAWHETINO_INVALID_EXPONENT_FLAGS: return "exponent both forbidden and required";
    case PAWHETINO_INVALID_MANTISSA_SIGN: return "mantissa sign required, yet no + allowed";
    case PAWHETINO_INVALID_EXPONENT_SIGN: return "exponent sign required, yet no + allowed";
    case PAWHETINO_INVALID_SPECIAL: return "special values forbidden, yet with case or separators";
    case PAWHETINO_INVALID_CONSECUTIVE_INTEGER: return "integer: consecutive separators allowed, but at no place";
    case PAWHETINO_INVALID_CONSECUTIVE_FRACTION: return "fraction: consecutive separators allowed, but at no place";
    case PAWHETINO_INVALID_CONSECUTIVE_EXPONENT: return "exponent: consecutive separators allowed, but at no place";
    case PAWHETINO_INVALID_FLAGS: return "flags other than those of a word from before separators";
    case PAWHETINO_CURSOR_PAST_END: return "cursor past the end";
    case PAWHETINO_COUNTS_EXCEED_CURSOR: return "counts together exceed the cursor";
    case PAWHETINO_NOT_BY_SPECIAL: return "the special reader has no zero skip, no block and no digit run";
    case PAWHETINO_UNKNOWN: return "no such reader, edition or kind of record";
    case PAWHETINO_RECORD_CUT_SHORT: return "record cut short";
    case PAWHETINO_OUT_OF_TURN: return "out of turn: call before an accepted open, or text or open after one";
    case PAWHETINO_TEXT_FULL: return "text full";
    case PAWHETINO_NO_DIGIT: return "no digit";
    case PAWHETINO_VALUE_ABOVE_64_BITS: return "value above 64 bits";
    case PAWHETINO_SCHOOL_ZERO_OR_LISTED: return "school number 0, or listed already";
    case PAWHETINO_CATALOGUE_FULL: return "catalogue full";
    case PAWHETINO_SCHOOL_NOT_LISTED: return "school not listed";
    default: return "no number of the log";
    }
}

/* The readers: of integer, fraction and exponent digits, and of special values. A reader passes separators where its flags allow
 * it, and takes the other bytes. */
#define PAWHETINO_INTEGER 0
#define PAWHETINO_FRACTION 1
#define PAWHETINO_EXPONENT 2
#define PAWHETINO_SPECIAL 3

/* The words of a state. pawhetino_fresh makes one; for a format word that it refuses, one is made by hand: the halves, and else 0.
 * A call goes on from the cursor and counts and writes them anew; it never changes the other four words. */
#define PAWHETINO_STATE_LO 0       /* the format word's halves */
#define PAWHETINO_STATE_HI 1
#define PAWHETINO_STATE_CURSOR 2   /* the place in the buffer */
#define PAWHETINO_STATE_INTEGER 3  /* digits counted by the integer reader */
#define PAWHETINO_STATE_FRACTION 4 /* by the fraction reader */
#define PAWHETINO_STATE_EXPONENT 5 /* by the exponent reader */
#define PAWHETINO_STATE_KEPT 6     /* 0; kept as given */
#define PAWHETINO_STATE_EDITION 7  /* the edition: 0 */

/* The words of an answer. What word 1 tells goes by the call; where there is nothing to tell it is left as it was. */
#define PAWHETINO_ANSWER_HAS 0    /* 1 where there is a byte, a block or a value, else 0 */
#define PAWHETINO_ANSWER_READ 0   /* of a conditional read: how it ended, below */
#define PAWHETINO_ANSWER_BYTE 1   /* the byte, of a declined read the one seen */
#define PAWHETINO_ANSWER_ZEROS 1  /* of a zero skip: how many */
#define PAWHETINO_ANSWER_START 1  /* of a block: its place in the buffer */
#define PAWHETINO_ANSWER_VALUE 1  /* of a digit run: the value */
#define PAWHETINO_ANSWER_TAKEN 2  /* how many bytes were taken */
#define PAWHETINO_ANSWER_PASSED 3 /* how many separators were passed */

/* How a conditional read ends. */
#define PAWHETINO_READ_END 0      /* there is no byte: exactly where a peek by the same reader would have none */
#define PAWHETINO_READ_TAKEN 1    /* the byte is one that was asked for, and is taken */
#define PAWHETINO_READ_DECLINED 2 /* it is another one, which is told and stays under the cursor */

/* The words of a catalogue: the two numbers below, then 64 places of one entry each. The entries stand first, ascending by school
 * number; the places behind them are 0. */
#define PAWHETINO_CATALOGUE_LEN 0        /* how many schools are listed */
#define PAWHETINO_CATALOGUE_SEPARATORS 1 /* how many of their words have a separator */
#define PAWHETINO_CATALOGUE_ENTRIES 2    /* where the first place begins */
#define PAWHETINO_CATALOGUE_PLACES 64
#define PAWHETINO_CATALOGUE_WORDS 194

/* The words of an entry: a school and the format word of its sheets. */
#define PAWHETINO_ENTRY_SCHOOL 0 /* 1 to 65,535 */
#define PAWHETINO_ENTRY_LO 1     /* the word's halves */
#define PAWHETINO_ENTRY_HI 2
#define PAWHETINO_ENTRY_WORDS 3

/* The full check of a word: 0, or the first of 1 to 14 that holds. */
uint32_t pawhetino_format_error(uint64_t lo, uint64_t hi);

/* The plain check, of words from before separators: 0, or the first of 1 to 6 and 15; 4 to 6 for a byte other than 0. */
uint32_t pawhetino_plain_format_error(uint64_t lo, uint64_t hi);

/* Whether a byte is a digit of a radix. */
bool pawhetino_char_is_digit_const(uint8_t c, uint32_t radix);

/* Whether a byte is valid ASCII: hex 09 to 0D and 20 to 7E. */
bool pawhetino_is_valid_ascii(uint8_t c);

/* Whether a byte is a digit of a word's mantissa radix. */
bool pawhetino_is_digit(uint64_t lo, uint64_t hi, uint8_t c);

/* Whether a byte is a word's digit separator. */
bool pawhetino_is_digit_separator(uint64_t lo, uint64_t hi, uint8_t c);

/* A state for a word, with cursor and counts 0: {lo, hi, 0, 0, 0, 0, 0, edition}. Refused with 19 for an edition other than 0, then
 * with 1 to 14 as by the full check; the state is then left as it was. */
uint32_t pawhetino_fresh(uint64_t lo, uint64_t hi, uint64_t edition, uint64_t state[8]);

/* A reader call is made by one of the four readers on a buffer s of len bytes and a state. It is refused with
 *   19 for another reader, or an edition other than 0 in the state;
 *   16 where the cursor is past the end, 17 where the counts together exceed the cursor;
 *   18 by the special reader, which has no zero skip, no block take and no digit run;
 *   12 to 14 where the reader's consecutive flag stands alone (not a block take),
 * the first of them that holds. A refused call leaves the state and word 1 of the answer as they were, and writes 0 to the answer's
 * other three. */

/* The byte under the cursor, after passing what the reader may pass. Nothing is taken. */
uint32_t pawhetino_peek(const uint8_t *s, size_t len, uint8_t reader, uint64_t state[8], uint64_t answer[4]);

/* The same, and the byte is taken: the cursor moves past it, and a reader with any flag counts it if it is a digit. */
uint32_t pawhetino_next(const uint8_t *s, size_t len, uint8_t reader, uint64_t state[8], uint64_t answer[4]);

/* Takes until there is no byte, so that its answer has none. Taken and passed are the sums of all the takes. */
uint32_t pawhetino_next_all(const uint8_t *s, size_t len, uint8_t reader, uint64_t state[8], uint64_t answer[4]);

/* Takes the byte that a peek would find, uncounted, where it is in a set of 256 bits, set[0] the lowest 64. Word 0 of the answer is
 * one of the three above, and what was passed stays passed in each of them. */
uint32_t pawhetino_read_if(
    const uint8_t *s, size_t len, uint8_t reader, uint64_t state[8], uint64_t answer[4], const uint64_t set[4]);

/* The same for a set of one byte. */
uint32_t pawhetino_read_if_value_cased(
    const uint8_t *s, size_t len, uint8_t reader, uint64_t state[8], uint64_t answer[4], uint8_t value);

/* Takes the zeros under the cursor, each of which is counted, until a read of one is declined or at the end; what that read passed
 * stays. Word 0 of the answer is 0. */
uint32_t pawhetino_skip_zeros(const uint8_t *s, size_t len, uint8_t reader, uint64_t state[8], uint64_t answer[4]);

/* Takes up to n bytes at once, uncounted, by a reader without flags: a block, which may be empty. Its length is what was taken. A
 * reader with any flag has none and stays. */
uint32_t pawhetino_take_n(const uint8_t *s, size_t len, uint8_t reader, uint64_t state[8], uint64_t answer[4], size_t n);

/* Takes while the byte that the reader peeks is a digit, each time from the state that the peek left; the first other byte is not
 * taken, and what the last peek passed stays passed. The answer has the value of the digits taken, by the word's mantissa radix;
 * taken and passed are the sums of all the peeks and takes. After the refusals above it is refused with
 *   23 where no digit is taken;
 *   24 where the value is above 64 bits. */
uint32_t pawhetino_digit_run(const uint8_t *s, size_t len, uint8_t reader, uint64_t state[8], uint64_t answer[4]);

/* How many digits the reader has counted, as lexical-util shows it: the count in the state; for a reader without flags the cursor
 * where the word has no separator, else the sum of the three; 0 for the special reader. Refused with 19, 16 and 17 alone; *count is
 * then left as it was. */
uint32_t pawhetino_current_count(const uint8_t *s, size_t len, uint8_t reader, const uint64_t state[8], size_t *count);

/* Takes every cell of a column to its end, each as a buffer of its own from a fresh state. The cells lie one after the other in s:
 * the first begins at 0, every other where the one before it ends, and the k-th ends at ends[k]; an end before the last one or past
 * len counts as that bound. Written are the sums over all cells, *digits of what the reader has counted. Refused with 19 for
 * another reader, or with 12 to 14 as above; the sums are then 0. */
uint32_t pawhetino_next_all_column(
    const uint8_t *s, size_t len, const size_t *ends, size_t cells, uint64_t lo, uint64_t hi, uint8_t reader,
    size_t *taken, size_t *passed, size_t *digits);

/* The end of a run: of bytes equal to a separator, from place at of s on without a break. It is sought as the readers seek it,
 * eight bytes at a time as one 64-bit number and the tail singly. Written are *end, the place behind the run, and the steps:
 * *eights over eight bytes, *ones over one. For k separators these are at + k, k / 8 rounded down, and k % 8. Nothing is refused:
 * with separator 0, which stands for none, and where at is at or past the end of s, they are at, 0 and 0. */
void pawhetino_run_end(
    const uint8_t *s, size_t len, uint8_t separator, size_t at, size_t *end, size_t *eights, size_t *ones);

/* The byte under a plain reader's cursor. It passes nothing, all four readers are alike, and its state is the cursor alone. Refused
 * with 19 for another reader, then with 16; cursor and answer are then as in a refused reader call. */
uint32_t pawhetino_plain_peek(const uint8_t *s, size_t len, uint8_t reader, size_t *cursor, uint64_t answer[4]);

/* The same, and the cursor moves past the byte. */
uint32_t pawhetino_plain_next(const uint8_t *s, size_t len, uint8_t reader, size_t *cursor, uint64_t answer[4]);

/* A catalogue holds the format words of up to 64 schools, which come and go. It is a block of 194 words, made by
 * pawhetino_catalogue_empty and changed by pawhetino_catalogue_add and pawhetino_catalogue_remove. A refused call writes nothing.
 *
 * In a block made otherwise as many places are listed as its first word says, at most 64, and an entry is sought at the first of
 * them whose school is not smaller: so every call still answers as below, and reads and writes nothing outside the block. */

/* Makes the catalogue empty: all its words 0, whatever they were. */
void pawhetino_catalogue_empty(uint64_t catalogue[PAWHETINO_CATALOGUE_WORDS]);

/* Lists a school with its word, before the entries of larger numbers, which move up one place. The tally of separators grows by
 * one where the word has one; a tally of 64 or more stays. Refused with
 *   1 to 14 as by the full check of the word;
 *   25 for school 0, or one that is listed already;
 *   26 where all 64 places are listed,
 * the first of them that holds. */
uint32_t pawhetino_catalogue_add(uint64_t catalogue[PAWHETINO_CATALOGUE_WORDS], uint16_t school, uint64_t lo, uint64_t hi);

/* Takes a school off the list: the entries behind it move down one place, and the last one's place becomes 0. The tally falls by
 * one where the school's word has a separator; a tally of 0 stays. Refused with 27 for a school that is not listed. */
uint32_t pawhetino_catalogue_remove(uint64_t catalogue[PAWHETINO_CATALOGUE_WORDS], uint16_t school);

/* The word of a school, as {lo, hi}. Refused with 27 for a school that is not listed; word is then left as it was. */
uint32_t pawhetino_catalogue_find(const uint64_t catalogue[PAWHETINO_CATALOGUE_WORDS], uint16_t school, uint64_t word[2]);

/* How many of the listed words have a separator, by the tally that is kept: it is told as it stands. */
uint64_t pawhetino_catalogue_separators(const uint64_t catalogue[PAWHETINO_CATALOGUE_WORDS]);

/* How many schools are listed: 0 to 64. */
size_t pawhetino_catalogue_len(const uint64_t catalogue[PAWHETINO_CATALOGUE_WORDS]);

/* The entry at place i, of which there are as many as schools: for i from 0 on these are the schools added and not removed since,
 * each once with its word. Refused with 27 for a place behind them; entry is then left as it was. */
uint32_t pawhetino_catalogue_entry(
    const uint64_t catalogue[PAWHETINO_CATALOGUE_WORDS], size_t i, uint64_t entry[PAWHETINO_ENTRY_WORDS]);

#ifdef __cplusplus
}
#endif

#endif
