/* The lines of pass lists and manual passes in a script being written, played on the scene of emit.h. */
#ifndef PEER_PASS_EMIT_H
#define PEER_PASS_EMIT_H

#include "emit.h"
#include "pass_texts.h"

struct pass_answer emit_give(uint32_t first, uint32_t second, uint32_t allowance);
void emit_staff(void);
void emit_register(void);

/* What a give would answer with no stop. */
struct pass_answer plan_give(uint32_t first, uint32_t second);

/* Counts a text that a line wrote. */
void count_list(enum fault fault);
void count_register(enum fault fault);

uint64_t emitted_gives(void);
uint64_t emitted_pass_lines(void);
void pass_print_counts(FILE *out);

#endif
