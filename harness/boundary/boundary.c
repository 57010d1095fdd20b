/* Arbitrary words, states, readers, buffers and catalogues through every function of the library, from C, each held to what the
 * header promises (checks.h). Slices and places lie against pages that cannot be read, so that a step beside one is a crash, and a
 * crash or a hang is told with its seed, round and function. First the header's own constants are held to the library
 * (constants.h), the search for the end of a run to what it promises of every short run (short_runs.h), and a catalogue to every
 * short history of one (histories.h).
 *
 *   boundary [--heap] [--rounds N] [SEED..]   so many inputs for each seed; the same seeds give the same inputs
 *   boundary --self-test                      whether faults put in place of the library's functions are found (wrong.h)
 *
 * With --heap slices and places lie in memory of just their size from malloc, for tools that watch such memory.
 */
#include <inttypes.h>
#include <signal.h>
#include <stdio.h>
#include <stdlib.h>
#include <string.h>
#include <sys/time.h>
#include <unistd.h>

#include "checks.h"
#include "constants.h"
#include "draw.h"
#include "histories.h"
#include "lay.h"
#include "self_test.h"
#include "short_runs.h"

/* Every number that can be returned: by the checks 0 to 15, by pawhetino_fresh 0 to 14 and 19, by the calls of the readers 0, 12 to
 * 14, 16 to 19, 23 and 24, by those of a catalogue 0 to 14 and 25 to 27. So many inputs of a seed must have brought them all
 * about. */
static const struct numbers_seen all_numbers = {0xFFFF, 0x87FFF, 0x18F7001, 0xE007FFF};
enum { ROUNDS_FOR_ALL_NUMBERS = 20000 };

/* A function that computes for so many seconds is taken to hang. */
enum { DEFAULT_ROUNDS = 100000, ROUNDS_PER_TIMER = 500, SECONDS = 60 };

static const uint64_t default_seeds[] = {1, UINT64_C(0x5041574845544942)};

/* Which input is being tried: of those drawn from a seed, or of these, which are numbered and have none. */
static const char *volatile numbered_now;
static uint64_t seed_now, round_now;

static bool uses_heap;

/* Of its places the schools. */
static void tell_catalogue(const struct input *in) {
    fprintf(stderr, "boundary: school %u, place %zu, word 0x%" PRIX64 " 0x%" PRIX64 ", %" PRIu64 " listed, tally %" PRIu64 ":",
            in->school, in->place, in->sheet[0], in->sheet[1], in->catalogue[PAWHETINO_CATALOGUE_LEN],
            in->catalogue[PAWHETINO_CATALOGUE_SEPARATORS]);
    for (int i = 0; i < PAWHETINO_CATALOGUE_PLACES; i++)
        fprintf(stderr, " %" PRIu64, in->catalogue[PAWHETINO_CATALOGUE_ENTRIES + PAWHETINO_ENTRY_WORDS * i]);
    fprintf(stderr, "\n");
}

_Noreturn void report_broken(const struct input *in, const char *promise) {
    if (numbered_now == NULL)
        fprintf(stderr, "boundary: seed 0x%" PRIX64, seed_now);
    else
        fprintf(stderr, "boundary: %s", numbered_now);
    fprintf(stderr, ", round %" PRIu64 ", %s: broken: %s\n", round_now, running, promise);
    fprintf(stderr, "boundary: reader %u, state", in->reader);
    for (int i = 0; i < 8; i++) fprintf(stderr, " 0x%" PRIX64, in->state[i]);
    fprintf(stderr, "\nboundary: value 0x%02X n %zu %zu cells, %zu bytes:", in->value, in->n, in->cells, in->len);
    for (size_t i = 0; i < in->len && i < 64; i++) fprintf(stderr, " %02X", in->s_copy[i]);
    fprintf(stderr, "\n");
    if (in->catalogue != NULL) tell_catalogue(in);
    exit(1);
}

/* In a signal handler only write may be called, so numbers are put into text by hand. */
static void say(const char *text) {
    if (write(STDERR_FILENO, text, strlen(text)) < 0) _exit(1);
}

static void say_number(uint64_t number) {
    char digits[] = "0x0000000000000000";
    for (int i = 17; i > 1; i--, number >>= 4) digits[i] = "0123456789ABCDEF"[number & 15];
    say(digits);
}

static void on_signal(int signal) {
    say("boundary: ");
    say(numbered_now == NULL ? "seed " : numbered_now);
    if (numbered_now == NULL) say_number(seed_now);
    say(", round ");
    say_number(round_now);
    say(", ");
    say(running);
    say(signal == SIGVTALRM ? ": does not end\n" : ": crashed\n");
    _exit(1);
}

/* On a stack of their own, so that a call that uses up the stack is told too. */
static void catch_signals(void) {
    static const int signals[] = {SIGSEGV, SIGBUS, SIGILL, SIGFPE, SIGABRT, SIGTRAP, SIGVTALRM};
    static uint8_t memory[1 << 16];
    stack_t stack = {.ss_sp = memory, .ss_size = sizeof memory};
    sigaltstack(&stack, NULL);
    struct sigaction action = {.sa_handler = on_signal, .sa_flags = SA_ONSTACK};
    for (size_t i = 0; i < sizeof signals / sizeof *signals; i++) sigaction(signals[i], &action, NULL);
}

/* An input once against each of the two pages, or on the heap. */
static void check_laid(const struct functions *functions, struct input *in, typeof(check_all) *check) {
    if (uses_heap) {
        lay_on_the_heap(in);
        check(functions, in);
        free_from_the_heap(in);
        return;
    }
    for (int at_end = 0; at_end < 2; at_end++) {
        lay_against_pages(in, at_end);
        check(functions, in);
    }
}

static void check_round(const struct functions *functions) {
    static struct drawn drawn;
    draw(&drawn, seed_now, round_now);
    check_laid(functions, &drawn.input, check_all);
}

/* Seconds of this process alone, so that a slow machine does not look like a hang. 0 stops the timer. */
static void start_timer(unsigned seconds) {
    struct itimerval timer = {.it_value.tv_sec = seconds};
    setitimer(ITIMER_VIRTUAL, &timer, NULL);
}

/* Each input that there is. */
static void check_numbered(const struct functions *functions, typeof(short_run) *make, typeof(check_all) *check, unsigned seconds) {
    static struct drawn drawn;
    catch_signals();
    for (round_now = 0; make(&drawn, round_now); round_now++) {
        if (round_now % ROUNDS_PER_TIMER == 0) start_timer(seconds);
        check_laid(functions, &drawn.input, check);
    }
    start_timer(0);
}

void check_short_runs(const struct functions *functions, unsigned seconds) {
    numbered_now = "short runs";
    check_numbered(functions, short_run, check_run_ends, seconds);
}

void check_histories(const struct functions *functions, unsigned seconds) {
    numbered_now = "histories";
    check_numbered(functions, history, check_history, seconds);
}

void check_seed(const struct functions *functions, uint64_t seed, uint64_t rounds, unsigned seconds) {
    numbered_now = NULL;
    seed_now = seed;
    catch_signals();
    for (round_now = 0; round_now < rounds; round_now++) {
        if (round_now % ROUNDS_PER_TIMER == 0) start_timer(seconds);
        check_round(functions);
    }
    start_timer(0);
}

/* The number that an argument stands for. */
static uint64_t number_of(const char *argument) {
    char *end;
    uint64_t number = strtoull(argument, &end, 0);
    if (*argument == 0 || *end != 0) {
        fprintf(stderr, "usage: boundary [--heap] [--rounds N] [SEED..] | boundary --self-test\n");
        exit(2);
    }
    return number;
}

static const char *where_laid(void) { return uses_heap ? "on the heap" : "each against two pages"; }

static void run_numbered(typeof(check_short_runs) *check) {
    check(&library, SECONDS);
    printf("boundary: %" PRIu64 " %s, %s: every promise holds\n", round_now, numbered_now, where_laid());
}

static void run(uint64_t seed, uint64_t rounds) {
    check_seed(&library, seed, rounds, SECONDS);
    printf("boundary: seed 0x%" PRIX64 ", %" PRIu64 " inputs, %s: every promise holds\n", seed, rounds, where_laid());
}

/* Whether all of these were returned; else those that were are told. */
static bool were_seen(const char *by, uint32_t seen, uint32_t due) {
    if (seen == due) return true;
    printf("boundary: not every number was returned by %s, but those with bits in 0x%" PRIX32 "\n", by, seen);
    return false;
}

static bool all_were_seen(void) {
    bool checks = were_seen("the checks", numbers_seen.by_checks, all_numbers.by_checks);
    bool fresh = were_seen("pawhetino_fresh", numbers_seen.by_fresh, all_numbers.by_fresh);
    bool calls = were_seen("the readers", numbers_seen.by_calls, all_numbers.by_calls);
    bool catalogue = were_seen("the catalogue", numbers_seen.by_catalogue, all_numbers.by_catalogue);
    return checks && fresh && calls && catalogue;
}

int main(int count, char **arguments) {
    uint64_t rounds = DEFAULT_ROUNDS;
    int next = 1;
    if (count == 2 && strcmp(arguments[1], "--self-test") == 0) return self_test();
    if (next < count && strcmp(arguments[next], "--heap") == 0) {
        uses_heap = true;
        next++;
    }
    if (next + 1 < count && strcmp(arguments[next], "--rounds") == 0) {
        rounds = number_of(arguments[next + 1]);
        next += 2;
    }
    if (!constants_hold()) return 1;
    run_numbered(check_short_runs);
    run_numbered(check_histories);
    if (next == count)
        for (size_t i = 0; i < sizeof default_seeds / sizeof *default_seeds; i++) run(default_seeds[i], rounds);
    for (; next < count; next++) run(number_of(arguments[next]), rounds);
    return rounds >= ROUNDS_FOR_ALL_NUMBERS && !all_were_seen();
}
