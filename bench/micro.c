/* The instructions of each call in each situation on the emulated board: SHAPES are pairs of a size and a number of units. */
#include <inttypes.h>
#include <stdio.h>

#include "board.h"
#include "situations.h"

static struct situation situations[MOST_SITUATIONS];
static struct image image;

static uint32_t instructions(const struct side *side, const struct situation *s)
{
    image_copy(&image, &s->image);
    uint32_t before = board_ticks();
    situation_call(side, s, image.bytes);
    return board_instructions(before, board_ticks());
}

int main(void)
{
    static const uint32_t shapes[][2] = { SHAPES };
    board_begin();
    if (!board_counts())
        return puts("wrong: the emulator does not count every instruction"), 1;
    for (size_t k = 0; k < sizeof shapes / sizeof shapes[0]; k++) {
        uint32_t many = situations_make(situations, shapes[k][0], shapes[k][1]);
        for (uint32_t i = 0; i < many; i++) {
            const struct situation *s = &situations[i];
            printf("%" PRIu32 " x %" PRIu32 "\t%s\t%s\t%" PRIu32 "\n", shapes[k][0], shapes[k][1], call_names[s->call], s->name,
                   instructions(&store_side, s) - instructions(&empty_side, s));
        }
    }
    return 0;
}
