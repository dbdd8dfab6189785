/* A small generator, the same on every machine for the same seed. */
#ifndef PEER_RANDOM_H
#define PEER_RANDOM_H

#include <stdbool.h>
#include <stdint.h>

void random_seed(uint64_t seed);

/* A number from 0 to limit - 1; limit is not 0. */
uint32_t random_below(uint32_t limit);

/* A number from first to last, both included. */
uint32_t random_between(uint32_t first, uint32_t last);
bool random_chance(uint32_t in_hundred);

#endif
