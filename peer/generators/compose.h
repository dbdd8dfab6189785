/* Images put together rather than reached: sectors in any order and with room between them,
   void and empty positions anywhere, units in any order. */
#ifndef PEER_COMPOSE_H
#define PEER_COMPOSE_H

#include "../checks/bench.h"

/* A settled image. */
void compose(struct bench *b, uint32_t unit_size, uint32_t units);

/* As many two-byte sectors as fit, in each home in no order. */
void compose_crowded(struct bench *b, uint32_t unit_size, uint32_t units);

/* The same, every second position used again since a reclaim: its sector lies below those that the reclaim kept. */
void compose_reclaimed(struct bench *b, uint32_t unit_size, uint32_t units);

/* Tries to bring a settled image into one of the groups of sound, or just beyond one. */
void compose_unfinished(struct bench *b);

#endif
