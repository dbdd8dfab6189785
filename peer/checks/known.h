/* Damage whose verdict is known: a sound image made not sound in one stated way. */
#ifndef PEER_KNOWN_H
#define PEER_KNOWN_H

#include "bench.h"

/* False where nothing was changed. */
bool make_not_sound(struct bench *b);

#endif
