/* A small random source (splitmix64): one seed, one run. */
#ifndef RANDOM_H
#define RANDOM_H

#include <stddef.h>
#include <stdint.h>

void start_random(uint64_t seed);
uint64_t random_word(void);

/* From 0 up to, not including, the limit, which is at least 1. */
uint64_t below(uint64_t limit);

/* From low to high, both included. */
uint64_t between(uint64_t low, uint64_t high);

int one_in(uint64_t count);

#endif
