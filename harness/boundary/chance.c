#include "chance.h"

/* splitmix64. */
static uint64_t state;

uint64_t bits(void) {
    uint64_t mixed = state += UINT64_C(0x9E3779B97F4A7C15);
    mixed = (mixed ^ mixed >> 30) * UINT64_C(0xBF58476D1CE4E5B9);
    mixed = (mixed ^ mixed >> 27) * UINT64_C(0x94D049BB133111EB);
    return mixed ^ mixed >> 31;
}

void start_chance(uint64_t seed, uint64_t round) {
    state = seed;
    state = bits() ^ round * UINT64_C(0xD1342543DE82EF95);
}

uint64_t below(uint64_t end) { return bits() % end; }

size_t any_number(size_t bound) {
    switch (below(5)) {
    case 0: return below(4);
    case 1: return bound + below(3) - 1;
    case 2: return SIZE_MAX - below(3);
    case 3: return bits();
    default: return bound == SIZE_MAX ? bits() : below(bound + 1);
    }
}
