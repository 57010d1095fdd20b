/* Numbers by chance, the same ones from the same seed and round. */
#ifndef CHANCE_H
#define CHANCE_H

#include <stdbool.h>
#include <stddef.h>
#include <stdint.h>

void start_chance(uint64_t seed, uint64_t round);

uint64_t bits(void);

uint64_t below(uint64_t end);

/* Any number: small, near a bound, near the largest, any bits. */
size_t any_number(size_t bound);

#endif
