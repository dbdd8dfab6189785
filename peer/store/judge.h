/* Judging an image: which unit is whose home, what the homes hold, settled or sound. */
#ifndef PEER_JUDGE_H
#define PEER_JUDGE_H

#include "unit.h"

struct handle {
    uint32_t unit;
    uint32_t position;
};

/* A group of "sound" names what alone keeps the image from being settled. */
enum group {
    GROUP_NOT_SOUND,
    GROUP_SETTLED,
    GROUP_TORN,
    GROUP_ALLOCATED,
    GROUP_TWO_PENDING,
    GROUP_NO_TRANSACTION,
    GROUP_TWO_PENDING_NO_TRANSACTION,
    GROUP_COMMITTED,
    GROUP_MOVING_HOME_LIVE,
    GROUP_MOVING_HOME_RETIRED,
    GROUP_MOVING_COPY_LIVE,
    GROUPS
};

struct home {
    uint32_t unit;       /* the unit that the home is read from */
    uint32_t unit_after; /* the unit that it will be on when the job's move, if any, is done */
    struct array array;
};

struct move {
    bool is;
    uint32_t logical;
    uint32_t old_home;
    uint32_t copy;
};

/* How many descriptors of one sort there are, and where the last one stands. */
struct found {
    uint32_t count;
    struct handle at;
};

/* An image decoded: all that the jobs and views need to know of it. */
struct store {
    struct home home[MAX_UNITS];
    uint32_t spare; /* the unit that is no home */
    struct move move;
    struct found torn, allocated, open, committed;
    struct found current[MAX_FILE + 1];
    struct found pending[MAX_FILE + 1];
    uint32_t all_pending;
    uint32_t current_delete_marks;
};

/* Needs a good geometry; s is whole wherever the answer is not GROUP_NOT_SOUND. */
enum group judge(const struct flash *f, struct store *s);

struct descriptor store_descriptor(const struct flash *f, const struct store *s, struct handle at);

/* Where the descriptor's flags stand when the job's move, if any, is done. */
uint32_t store_flags_address(const struct flash *f, const struct store *s, struct handle at);

#endif
