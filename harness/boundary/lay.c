#include "lay.h"

#include <stdio.h>
#include <stdlib.h>
#include <string.h>
#include <sys/mman.h>
#include <unistd.h>

/* What lies somewhere; none is larger than the longest buffer. */
enum slot { BUFFER, ENDS, STATE, ANSWER, SET, CATALOGUE, WORD, ENTRY, NUMBERS, SLOTS = NUMBERS + 3 };

static size_t whole_pages(void) {
    size_t page = (size_t)sysconf(_SC_PAGESIZE);
    return (LONGEST_BUFFER + page - 1) / page * page;
}

/* A slot's pages, between two that cannot be read. */
static uint8_t *fenced(enum slot slot) {
    static uint8_t *memory[SLOTS];
    if (memory[slot] != NULL) return memory[slot];
    size_t page = (size_t)sysconf(_SC_PAGESIZE), size = whole_pages();
    uint8_t *all = mmap(NULL, size + 2 * page, PROT_NONE, MAP_PRIVATE | MAP_ANONYMOUS, -1, 0);
    if (all == MAP_FAILED || mprotect(all + page, size, PROT_READ | PROT_WRITE) != 0) {
        perror("boundary: no memory between pages");
        exit(2);
    }
    return memory[slot] = all + page;
}

static void *at_the_start(enum slot slot, size_t size) {
    (void)size;
    return fenced(slot);
}

static void *at_the_end(enum slot slot, size_t size) { return fenced(slot) + whole_pages() - size; }

static void *on_the_heap(enum slot slot, size_t size) {
    (void)slot;
    void *place = malloc(size);
    if (place == NULL) exit(2);
    return place;
}

static const void *copied(void *place, const void *bytes, size_t size) {
    if (size > 0) memcpy(place, bytes, size);
    return place;
}

static void lay(struct input *in, void *(*room)(enum slot slot, size_t size)) {
    size_t ends_size = in->cells * sizeof *in->ends;
    in->s = copied(room(BUFFER, in->len), in->s_copy, in->len);
    in->ends = copied(room(ENDS, ends_size), in->ends_copy, ends_size);
    in->lent.state = room(STATE, 8 * sizeof(uint64_t));
    in->lent.answer = room(ANSWER, 4 * sizeof(uint64_t));
    in->lent.set = room(SET, 4 * sizeof(uint64_t));
    for (int i = 0; i < 3; i++) in->lent.numbers[i] = room(NUMBERS + i, sizeof(size_t));
    in->lent.catalogue = room(CATALOGUE, PAWHETINO_CATALOGUE_WORDS * sizeof(uint64_t));
    in->lent.word = room(WORD, 2 * sizeof(uint64_t));
    in->lent.entry = room(ENTRY, PAWHETINO_ENTRY_WORDS * sizeof(uint64_t));
}

void lay_against_pages(struct input *in, bool at_end) { lay(in, at_end ? at_the_end : at_the_start); }

void lay_on_the_heap(struct input *in) { lay(in, on_the_heap); }

void free_from_the_heap(struct input *in) {
    free((void *)in->s);
    free((void *)in->ends);
    free(in->lent.state);
    free(in->lent.answer);
    free(in->lent.set);
    for (int i = 0; i < 3; i++) free(in->lent.numbers[i]);
    free(in->lent.catalogue);
    free(in->lent.word);
    free(in->lent.entry);
}
