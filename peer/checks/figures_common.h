/* What several parts of peer-figures use. */
#ifndef PEER_FIGURES_COMMON_H
#define PEER_FIGURES_COMMON_H

#include "bench.h"

/* A content of zeros, one byte longer than the longest. */
extern const uint8_t zeros[MAX_CONTENT + 1];

/* Case K's image before the write of file 2. */
void before_case_k(struct bench *b);

#endif
