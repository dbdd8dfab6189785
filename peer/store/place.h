/* Place: where a new sector goes, and which unit is reclaimed for it. */
#ifndef PEER_PLACE_H
#define PEER_PLACE_H

#include "judge.h"
#include "rule.h"

struct place {
    bool is; /* false is NO ROOM */
    bool reclaims;
    struct handle at;
    uint32_t offset;
};

/* Needs a settled image and an even size. */
struct place place_find(const struct flash *f, const struct store *s, enum rule rule, uint32_t size);

#endif
