/* The work on the emulated board: 16 files of 16 bytes, UPDATES updates of any of them, and reads and mounts on the way. Prints the mean
 * and the most instructions of each, what the flash was asked for, and the memory; the stack goes to standard error. */
#include "work.h"

#include <inttypes.h>
#include <stdio.h>
#include <stdlib.h>
#include <string.h>

#include "../driver/painted.h"
#include "board.h"

enum { FILES = 16 };

static struct sum {
    uint64_t all;
    uint32_t count, most;
} updates, reads, mounts;

static uint8_t held[FILES][WORK_LENGTH];

static void right(bool is_right, const char *what)
{
    if (is_right)
        return;
    printf("wrong: %s\n", what);
    exit(1);
}

static void add(struct sum *s, uint32_t before, uint32_t after)
{
    uint32_t n = board_instructions(before, after);
    s->all += n;
    s->count++;
    if (n > s->most)
        s->most = n;
}

/* COUNTED(sum, call): the call is made, and its instructions go to the sum, its stack to standard error. */
#define COUNTED(sum, call)                   \
    do {                                     \
        static size_t most_;                 \
        uintptr_t sp_ = stack_pointer();     \
        paint(sp_);                          \
        uint32_t before_ = board_ticks();    \
        bool done_ = call;                   \
        add(sum, before_, board_ticks());    \
        measured(#call, sp_, &most_);        \
        right(done_, #call " was not done"); \
    } while (0)

static void tell(const char *what, const struct sum *s)
{
    printf("%s\t%" PRIu32 "\t%" PRIu32 "\n", what, (uint32_t)(s->all / s->count), s->most);
}

static void update(uint32_t file, uint32_t turn)
{
    for (uint32_t i = 0; i < WORK_LENGTH; i++)
        held[file][i] = (uint8_t)(turn >> 8 * (i % 4));
    COUNTED(&updates, work_update(file, held[file]));
}

static void look(uint32_t file)
{
    uint8_t content[WORK_LENGTH];
    COUNTED(&reads, work_read(file, content));
    right(memcmp(content, held[file], WORK_LENGTH) == 0, "another content than was written");
}

int main(void)
{
    uint32_t random = 1;
    board_begin();
    right(board_counts(), "the emulator does not count every instruction");
    right(work_format(), "no format");
    for (uint32_t file = 0; file < FILES; file++)
        update(file, file);
    updates = (struct sum){ 0 };
    work_programmed = work_erased = 0;
    for (uint32_t turn = 0; turn < UPDATES; turn++) {
        random = random * 1664525 + 1013904223;
        update(random >> 28, turn);
        if (turn % 16 == 0)
            look(random >> 24 & 15);
        if (turn % 256 == 0)
            COUNTED(&mounts, work_mount());
    }
    for (uint32_t file = 0; file < FILES; file++)
        look(file);
    tell("update", &updates);
    tell("read", &reads);
    tell("mount", &mounts);
    printf("programmed\t%" PRIu32 "\nerased\t%" PRIu32 "\nmemory\t%" PRIu32 "\n", work_programmed, work_erased, (uint32_t)work_memory);
    return 0;
}
