/* Images that the calls are measured on, each with one call to make. They are made by the second program, the same every time. */
#ifndef BENCH_SITUATIONS_H
#define BENCH_SITUATIONS_H

#include "sides.h"

enum call {
    FORMAT,
    MOUNT,
    BEGIN,
    WRITE,
    DELETE,
    BEGIN_LOWEST,
    WRITE_LOWEST,
    DELETE_LOWEST,
    COMMIT,
    ABORT,
    READ,
    READ_OPEN,
    READ_AT,
    CALLS
};

struct situation {
    const char *name;
    enum call call;
    uint32_t file;
    uint32_t unit, position;
    uint32_t length; /* of the content that is written */
    struct image image;
};

enum { MOST_SITUATIONS = 32 };

extern const char *const call_names[CALLS];

us_report situation_call(const struct side *side, const struct situation *s, uint8_t *bytes);

/* The situations of a geometry, in a store in use for a while: how many there are. */
uint32_t situations_make(struct situation *s, uint32_t size, uint32_t units);

#endif
