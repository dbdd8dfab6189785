#include "move.h"

#include <string.h>

struct array move_array_after(const struct flash *f, uint32_t unit)
{
    struct array before = unit_array(f, unit);
    struct array after = { .n = 0, .low = f->unit_size };
    for (uint32_t p = 0; p < before.n; p++) {
        if (!unit_is_kept(f, unit, p))
            continue;
        after.n = p + 1;
        after.low -= even_size(unit_descriptor(f, unit, p).length);
    }
    return after;
}

bool move_is_possible(const struct flash *f, uint32_t unit)
{
    struct array a = unit_array(f, unit);
    uint32_t kept = 0;
    for (uint32_t p = 0; p < a.n; p++) {
        if (!unit_is_kept(f, unit, p))
            continue;
        struct descriptor d = unit_descriptor(f, unit, p);
        uint32_t size = even_size(d.length);
        if (d.length > MAX_CONTENT || d.offset % 2 != 0 || d.offset + size > f->unit_size)
            return false;
        kept += size;
    }
    return HEADER_SIZE + DESCRIPTOR_SIZE * a.n + kept <= f->unit_size;
}

/* Copies one sector to offset low of the unit that starts at copy_start. */
static void copy_sector(struct job *j, const struct flash *f, uint32_t unit, uint32_t position, uint32_t copy_start, uint32_t low)
{
    struct descriptor d = unit_descriptor(f, unit, position);
    uint32_t at = copy_start + HEADER_SIZE + DESCRIPTOR_SIZE * position;
    job_program(j, at + AT_FLAGS, d.flags);
    job_program(j, at + AT_OFFSET, (uint16_t)low);
    job_program(j, at + AT_LENGTH, d.length);
    job_program(j, at + AT_TAG, d.tag);
    uint32_t from = flash_unit_start(f, unit) + d.offset;
    for (uint32_t i = 0; i < even_size(d.length); i += 2)
        job_program(j, copy_start + low + i, flash_word(f, from + i));
}

static void fill(struct job *j, const struct flash *f, uint32_t unit, uint32_t copy_start, uint16_t logical)
{
    struct array a = unit_array(f, unit);
    uint32_t low = f->unit_size;
    job_program(j, copy_start, logical);
    for (uint32_t p = 0; p < a.n; p++) {
        if (!unit_is_kept(f, unit, p))
            continue;
        low -= even_size(unit_descriptor(f, unit, p).length);
        copy_sector(j, f, unit, p, copy_start, low);
    }
}

void move_copy_of(const struct flash *f, uint32_t unit, uint16_t logical, uint8_t *copy)
{
    struct flash alone = { .image = copy, .length = f->unit_size, .unit_size = f->unit_size, .units = 1 };
    struct job j;
    uint32_t steps;
    memset(copy, 0xFF, f->unit_size);
    job_start(&j);
    fill(&j, f, unit, 0, logical);
    job_run(&j, &alone, MAX_INTENTS, &steps);
}

void move_list(struct job *j, const struct flash *f, uint32_t old_home, uint32_t copy, uint16_t logical)
{
    fill(j, f, old_home, flash_unit_start(f, copy), logical);
    job_program(j, flash_unit_start(f, old_home) + 2, STATE_RETIRED);
    job_program(j, flash_unit_start(f, copy) + 2, STATE_LIVE);
    job_erase(j, old_home);
}
