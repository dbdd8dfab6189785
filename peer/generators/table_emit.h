/* The lines of the table in a script being written, played beside the scene of emit.h, each call with its claims checked. */
#ifndef PEER_TABLE_EMIT_H
#define PEER_TABLE_EMIT_H

#include "../store/table.h"
#include "emit.h"

/* The table as the script's lines have left it. */
extern struct table beside;

/* A new image with a table of zeros. */
void start_pair(uint32_t unit_size, uint32_t units);

struct answer through(const struct call *c, uint32_t allowance);
struct answer through_fill(void);

void table_size(uint32_t entries);
void table_keep(void);
void table_back(void);
void table_look(void);
void table_look_at(uint32_t i);

/* Puts what makes the table the given one, of as many entries. The table counts as damaged until it is filled or goes back. */
void table_become(const struct table *t);

/* What changes the image alone, so that the two are no longer left by the same call. */
struct answer image_call(const struct call *c, uint32_t allowance);
void image_become(const struct bench *image);
void image_size(uint32_t length);
void image_keep(void);
void image_back(void);

uint64_t emitted_through(void);
void table_print_counts(FILE *out);

#endif
