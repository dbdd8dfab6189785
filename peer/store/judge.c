#include "judge.h"

#include <string.h>

#include "homes.h"
#include "move.h"

struct descriptor store_descriptor(const struct flash *f, const struct store *s, struct handle at)
{
    return unit_descriptor(f, s->home[at.unit].unit, at.position);
}

uint32_t store_flags_address(const struct flash *f, const struct store *s, struct handle at)
{
    return unit_descriptor_address(f, s->home[at.unit].unit_after, at.position) + AT_FLAGS;
}

static void count(struct found *found, struct handle at)
{
    found->count++;
    found->at = at;
}

static void count_pending(struct store *s, struct descriptor d, struct handle at)
{
    if (descriptor_is_transaction(d)) {
        count(&s->open, at);
        return;
    }
    count(&s->pending[descriptor_file(d)], at);
    s->all_pending++;
}

static void count_current(struct store *s, struct descriptor d, struct handle at)
{
    if (descriptor_is_transaction(d))
        count(&s->committed, at);
    else if (descriptor_is_delete_mark(d))
        s->current_delete_marks++;
    else
        count(&s->current[descriptor_file(d)], at);
}

static void count_descriptor(struct store *s, struct descriptor d, struct handle at)
{
    switch (descriptor_kind(d)) {
    case KIND_TORN: count(&s->torn, at); break;
    case KIND_ALLOCATED: count(&s->allocated, at); break;
    case KIND_PENDING: count_pending(s, d, at); break;
    case KIND_CURRENT: count_current(s, d, at); break;
    default: break;
    }
}

static bool homes_ok(const struct flash *f, struct store *s)
{
    for (uint32_t l = 0; l + 1 < f->units; l++) {
        struct home *h = &s->home[l];
        h->array = unit_array(f, h->unit);
        if (!unit_home_ok(f, h->unit, h->array))
            return false;
        for (uint32_t p = 0; p < h->array.n; p++)
            count_descriptor(s, unit_descriptor(f, h->unit, p), (struct handle){ l, p });
    }
    return true;
}

/* What no group lifts: one current descriptor a file, and no delete mark among them. */
static bool current_ok(const struct store *s)
{
    for (uint32_t file = 0; file <= MAX_FILE; file++)
        if (s->current[file].count > 1)
            return false;
    return s->current_delete_marks == 0;
}

/* Files with two pending descriptors; more than one where any file has three or more. */
static uint32_t files_pending_twice(const struct store *s)
{
    uint32_t twice = 0;
    for (uint32_t file = 0; file <= MAX_FILE; file++) {
        if (s->pending[file].count == 2)
            twice++;
        else if (s->pending[file].count > 2)
            twice += 2;
    }
    return twice;
}

/* The group that the homes' descriptors are in, a moving unit left aside. */
static enum group descriptors_group(const struct store *s)
{
    uint32_t unfinished = s->torn.count + s->allocated.count;
    uint32_t twice = files_pending_twice(s);
    if (!current_ok(s) || s->open.count + s->committed.count > 1 || unfinished > 1 || twice > 1)
        return GROUP_NOT_SOUND;
    if (s->committed.count == 1)
        return unfinished == 0 && twice == 0 ? GROUP_COMMITTED : GROUP_NOT_SOUND;
    bool no_transaction = s->open.count == 0 && s->all_pending > 0;
    if (unfinished == 1) {
        if (twice == 1 || no_transaction)
            return GROUP_NOT_SOUND;
        return s->torn.count == 1 ? GROUP_TORN : GROUP_ALLOCATED;
    }
    if (twice == 1)
        return no_transaction ? GROUP_TWO_PENDING_NO_TRANSACTION : GROUP_TWO_PENDING;
    return no_transaction ? GROUP_NO_TRANSACTION : GROUP_SETTLED;
}

/* Each word of the receiving unit is FFFF or the copy's. */
static bool is_part_of(const struct flash *f, uint32_t unit, const uint8_t *copy)
{
    uint32_t start = flash_unit_start(f, unit);
    for (uint32_t i = 0; i < f->unit_size; i += 2)
        if (flash_word(f, start + i) != ERASED && memcmp(f->image + start + i, copy + i, 2) != 0)
            return false;
    return true;
}

/* The header's logical number is known to be the same, its state is not the copy's to say. */
static bool is_complete(const struct flash *f, uint32_t unit, const uint8_t *copy)
{
    return memcmp(f->image + flash_unit_start(f, unit) + 4, copy + 4, f->unit_size - 4) == 0;
}

static enum group moving_group(const struct flash *f, const struct move *m)
{
    uint8_t copy[MAX_UNIT_SIZE];
    if (!move_is_possible(f, m->old_home))
        return GROUP_NOT_SOUND;
    move_copy_of(f, m->old_home, (uint16_t)m->logical, copy);
    if (unit_state(f, m->old_home) == STATE_LIVE)
        return is_part_of(f, m->copy, copy) ? GROUP_MOVING_HOME_LIVE : GROUP_NOT_SOUND;
    if (!is_complete(f, m->copy, copy))
        return GROUP_NOT_SOUND;
    bool live = unit_state(f, m->copy) == STATE_LIVE;
    return live ? GROUP_MOVING_COPY_LIVE : GROUP_MOVING_HOME_RETIRED;
}

enum group judge(const struct flash *f, struct store *s)
{
    memset(s, 0, sizeof *s);
    if (!homes_find(f, s) || !homes_ok(f, s))
        return GROUP_NOT_SOUND;
    enum group g = descriptors_group(s);
    if (!s->move.is || g == GROUP_NOT_SOUND)
        return g;
    return g == GROUP_SETTLED ? moving_group(f, &s->move) : GROUP_NOT_SOUND;
}
