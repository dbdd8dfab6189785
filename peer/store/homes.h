/* Which unit is the home of each logical number, and which one is none. */
#ifndef PEER_HOMES_H
#define PEER_HOMES_H

#include "judge.h"

/* Fills in homes, spare and move; false where headers alone show the image is not sound. */
bool homes_find(const struct flash *f, struct store *s);

#endif
