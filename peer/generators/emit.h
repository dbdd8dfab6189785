/* A script being written: each line goes to standard output, and is played on an image of its own so that the next line can be
   chosen by what the store holds. */
#ifndef PEER_EMIT_H
#define PEER_EMIT_H

#include <stdio.h>

#include "../checks/run.h"

/* The image as the script's lines have left it. */
extern struct bench scene;

void emit_new(uint32_t unit_size, uint32_t units);
void emit_size(uint32_t length);
void emit_keep(void);
void emit_back(void);
void emit_judge(void);
void emit_list(void);

/* A line that is no command; it may hold anything but a line feed or a tab. */
void emit_wrong(const char *line);

/* Puts what makes the image the given one, of the same geometry. The image counts as damaged where `damage` says so. */
void emit_image(const struct bench *image, bool damage);

struct answer emit_call(const struct call *c, uint32_t allowance);

/* What a call would do with no stop. */
struct plan {
    uint32_t number;
    uint32_t steps;
    uint32_t erase; /* the step that erases a moved unit's old home, or 0 */
};

struct plan plan_call(const struct call *c);

uint64_t emitted_calls(void);
void emit_print_counts(FILE *out);

#endif
