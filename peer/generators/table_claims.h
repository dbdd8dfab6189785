/* What is claimed of every call through a table, checked with the store's plain calls. */
#ifndef PEER_TABLE_CLAIMS_H
#define PEER_TABLE_CLAIMS_H

#include <stdio.h>

#include "../checks/run.h"
#include "../store/table.h"

/* An image with a table beside it; `together` where both were last left by the same call. */
struct pair {
    struct bench bench;
    struct table table;
    bool together;
};

/* A call through the table; c is NULL for a fill. */
struct answer table_make(struct flash f, struct table *t, const struct call *c, uint32_t allowance);

/* Checks one call that led from the one to the other. A violation ends the program with status 1; the last line of the script shows it. */
void check_claims(const struct pair *from, const struct pair *to, const struct call *c, uint32_t allowance, struct answer a);

void print_claims(FILE *out);

#endif
