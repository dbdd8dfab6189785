/* A settled image of as many two-byte sectors as fit, in each home in no order, so many of them current files, made by the second
 * program. */
#ifndef BENCH_CROWDED_H
#define BENCH_CROWDED_H

#include <stdint.h>

void crowded_make(uint8_t *bytes, uint32_t size, uint32_t units, uint32_t files);

#endif
