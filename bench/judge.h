/* What the archive exports for the measurements: Rattle's &[u8] is a pointer and a length. */
#ifndef BENCH_JUDGE_H
#define BENCH_JUDGE_H

#include <stddef.h>
#include <stdint.h>

enum { SETTLED = 0, BAD_GEOMETRY = 2, BAD_IMAGE = 3, UNSETTLED = 4 };

/* What every call answers first: one of the numbers above, for any bytes and any numbers. */
uint32_t us_first(const uint8_t *image, size_t length, uint32_t unit_size, uint32_t units);

/* The image's bytes added up by a plain loop. */
uint32_t us_sum(const uint8_t *image, size_t length);

#endif
