/* Instructions on an emulated board, counted exactly: the emulator is told that each one takes 512 ns (-icount shift=9), and the board's
 * timer has a tick of 40 ns. */
#ifndef BENCH_BOARD_H
#define BENCH_BOARD_H

#include <stdint.h>

/* The timer's registers on the board MPS2 (AN385): it counts down. */
static volatile uint32_t *const board_timer = (volatile uint32_t *)0x40000000;

static inline void board_begin(void)
{
    board_timer[2] = board_timer[1] = UINT32_MAX;
    board_timer[0] = 1;
}

static inline uint32_t board_ticks(void)
{
    return UINT32_MAX - board_timer[1];
}

/* Of less than 335 million instructions between two readings of the ticks. */
static inline uint32_t board_instructions(uint32_t before, uint32_t after)
{
    return (uint32_t)(((uint64_t)(after - before) * 5 + 32) / 64);
}

/* Whether a thousand instructions more are counted as a thousand. */
static inline int board_counts(void)
{
    uint32_t first = board_ticks();
    uint32_t before = board_ticks();
    __asm__ volatile(".rept 1000\nnop\n.endr");
    uint32_t after = board_ticks();
    return board_instructions(before, after) - board_instructions(first, before) == 1000;
}

#endif
