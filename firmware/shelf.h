/* What the store must hold after each commit, told from the calls alone: plain arrays, and nothing of the store. */
#ifndef FIRMWARE_SHELF_H
#define FIRMWARE_SHELF_H

#include "calls.h"

struct shelf {
    struct {
        bool is;
        size_t length;
        uint8_t bytes[LARGEST_CONTENT];
    } file[FILES];
};

enum { MOST_COMMITS = 60 };

/* The shelf after 0, 1, 2, .. commits, of which a pass that is given is one; the commits before each call; the files that calls name, and
 * some that none does. */
struct shelves {
    uint32_t commits[MOST_CALLS + 1];
    uint32_t file[FILES];
    uint32_t files;
    struct shelf after[MOST_COMMITS + 1];
};

void shelves_fill(struct shelves *s, const struct history *h);

/* The steps of a pass call from its commit step on. */
uint32_t shelves_commit_steps(const struct shelves *s, uint32_t commits);

/* NULL where the committed view is the shelf, and reads through the table say the same, or that it is stale where it has to be; else what
 * is wrong, in words. */
const char *shelves_compare(const struct shelves *s, uint32_t commits, const struct flash *f, bool is_usable);

#endif
