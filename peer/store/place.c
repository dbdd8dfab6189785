#include "place.h"

#include "move.h"

/* A unit as Place sees it: its array and its lowest empty position, n where none is below n. */
struct candidate {
    struct array array;
    uint32_t position;
};

static bool fits(struct candidate c, uint32_t size)
{
    uint32_t gap = array_gap(c.array);
    bool has_empty = c.position < c.array.n;
    return (has_empty && size <= gap) || size + DESCRIPTOR_SIZE <= gap;
}

static struct candidate as_it_is(const struct flash *f, const struct home *h)
{
    struct candidate c = { h->array, 0 };
    while (c.position < c.array.n && descriptor_kind(unit_descriptor(f, h->unit, c.position)) != KIND_EMPTY)
        c.position++;
    return c;
}

static struct candidate after_reclaiming(const struct flash *f, const struct home *h)
{
    struct candidate c = { move_array_after(f, h->unit), 0 };
    while (c.position < c.array.n && unit_is_kept(f, h->unit, c.position))
        c.position++;
    return c;
}

static struct place place_in(uint32_t logical, struct candidate c, uint32_t size, bool reclaims)
{
    return (struct place){ .is = true, .reclaims = reclaims, .at = { logical, c.position }, .offset = c.array.low - size };
}

static struct place find_after_reclaiming(const struct flash *f, const struct store *s, uint32_t size)
{
    struct place best = { .is = false };
    uint32_t best_gap = 0;
    for (uint32_t l = 0; l + 1 < f->units; l++) {
        struct candidate c = after_reclaiming(f, &s->home[l]);
        uint32_t gap = array_gap(c.array);
        if (!fits(c, size) || (best.is && gap <= best_gap))
            continue;
        best = place_in(l, c, size, true);
        best_gap = gap;
    }
    return best;
}

/* By the old rule the first that fits is the one; by the default a later one takes its place where its gap is smaller. */
static struct place find_as_it_is(const struct flash *f, const struct store *s, enum rule rule, uint32_t size)
{
    struct place best = { .is = false };
    uint32_t best_gap = 0;
    for (uint32_t l = 0; l + 1 < f->units && !(rule == LOWEST && best.is); l++) {
        struct candidate c = as_it_is(f, &s->home[l]);
        uint32_t gap = array_gap(c.array);
        if (!fits(c, size) || (best.is && gap >= best_gap))
            continue;
        best = place_in(l, c, size, false);
        best_gap = gap;
    }
    return best;
}

struct place place_find(const struct flash *f, const struct store *s, enum rule rule, uint32_t size)
{
    struct place place = find_as_it_is(f, s, rule, size);
    return place.is ? place : find_after_reclaiming(f, s, size);
}
