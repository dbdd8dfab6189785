#include "figures_common.h"

const uint8_t zeros[MAX_CONTENT + 1] = { 0 };

void before_case_k(struct bench *b)
{
    bench_formatted(b, 512, 3);
    for (uint32_t i = 0; i < 2; i++) {
        store_begin_by(b->flash, LOWEST, PLENTY);
        store_write_by(b->flash, LOWEST, 1, zeros, 256, PLENTY);
        store_commit(b->flash, PLENTY);
    }
    store_begin_by(b->flash, LOWEST, PLENTY);
}
