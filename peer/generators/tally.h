/* What images were written: by verdict, group, geometry, and where they were damaged. */
#ifndef PEER_TALLY_H
#define PEER_TALLY_H

#include <stdio.h>

#include "../checks/bench.h"

extern const char *const verdict_name[4];

/* True where this image with these numbers was not seen before. */
bool tally_is_new(const struct flash *f);

/* Counts one image and gives its verdict; reached is what it was damaged from, or NULL. */
enum judgement tally_count(const struct bench *b, const struct bench *reached);
uint64_t tally_images(void);
void tally_print(FILE *out);

#endif
