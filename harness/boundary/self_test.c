#include "self_test.h"

#include <stdio.h>
#include <string.h>
#include <sys/wait.h>
#include <unistd.h>

#include "wrong.h"

/* Short, since the functions with faults do not take long either. */
enum { ROUNDS = 3000, SECONDS = 2 };

/* The library with one function replaced. The struct is one pointer after the other. */
static struct functions library_with(const struct functions *wrong) {
    typedef void (*any)(void);
    any all[sizeof(struct functions) / sizeof(any)], others[sizeof all / sizeof *all];
    struct functions functions;
    memcpy(all, &library, sizeof all);
    memcpy(others, wrong, sizeof others);
    for (size_t i = 0; i < sizeof all / sizeof *all; i++)
        if (others[i] != NULL) all[i] = others[i];
    memcpy(&functions, all, sizeof functions);
    return functions;
}

typedef void checks(const struct functions *functions);

static void check_drawn(const struct functions *functions) { check_seed(functions, 1, ROUNDS, SECONDS); }

static void check_short(const struct functions *functions) { check_short_runs(functions, SECONDS); }

static void check_short_histories(const struct functions *functions) { check_histories(functions, SECONDS); }

/* Starts checks in a process of their own, whose standard error can be read from *from. */
static pid_t start_checks(checks *checks, const struct functions *functions, int *from) {
    int ends[2];
    if (pipe(ends) != 0) return -1;
    pid_t child = fork();
    if (child == 0) {
        dup2(ends[1], STDERR_FILENO);
        close(ends[0]);
        checks(functions);
        _exit(0);
    }
    close(ends[1]);
    *from = ends[0];
    return child;
}

static void read_all(int from, char *text, size_t size) {
    size_t length = 0;
    for (ssize_t more; length < size - 1 && (more = read(from, text + length, size - 1 - length)) > 0;) length += (size_t)more;
    text[length] = 0;
    close(from);
}

/* Whether the process ends with status 1 and says the words. */
static bool is_found_by(checks *checks, const char *inputs, const struct fault *fault) {
    int from = -1, status = 0;
    char told[4096] = "";
    fflush(stdout);
    struct functions functions = library_with(&fault->wrong);
    pid_t child = start_checks(checks, &functions, &from);
    if (child > 0) read_all(from, told, sizeof told);
    bool ended = child > 0 && waitpid(child, &status, 0) == child && WIFEXITED(status) && WEXITSTATUS(status) == 1;
    bool found = ended && strstr(told, fault->told) != NULL;
    printf("boundary: self-test, %s%s: %s\n", fault->what, inputs, found ? "found" : "NOT FOUND");
    if (!found) printf("    told, with status %d: %s\n", status, told);
    return found;
}

static bool is_found(const struct fault *fault) {
    bool found = is_found_by(check_drawn, "", fault);
    return (fault->wrong.run_end == NULL || is_found_by(check_short, ", on short runs", fault)) && found;
}

static bool is_found_in_histories(const struct fault *fault) {
    return is_found_by(check_short_histories, ", in histories", fault);
}

static size_t found_of(const struct fault *faults, size_t count, typeof(is_found) *is_found) {
    size_t found = 0;
    for (size_t i = 0; i < count; i++) found += is_found(&faults[i]);
    return found;
}

int self_test(void) {
    size_t count = fault_count + catalogue_fault_count, found = found_of(faults, fault_count, is_found);
    found += found_of(catalogue_faults, catalogue_fault_count, is_found);
    size_t in_histories = found_of(history_faults, history_fault_count, is_found_in_histories);
    printf("boundary: self-test: %zu of %zu faults found, %zu of %zu in histories\n", found, count, in_histories,
           history_fault_count);
    return found != count || in_histories != history_fault_count;
}
