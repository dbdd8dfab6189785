/* Rows of counts, as the generators print them. */
#ifndef PEER_ROWS_H
#define PEER_ROWS_H

#include <stdint.h>
#include <stdio.h>

/* Unit sizes, and ranges of numbers of units. */
extern const char *const size_name[4];
extern const char *const units_name[4];

/* A title, and each count behind its name. */
void print_row(FILE *out, const char *title, const char *const *names, const uint64_t *counts, uint32_t count);

/* The same, the names being 0, 1, 2 and so on. */
void print_numbered(FILE *out, const char *title, const uint64_t *counts, uint32_t count);

#endif
