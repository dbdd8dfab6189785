#include "homes.h"

/* The units that are not live: a sound image has one, or two while a home is retired. */
struct others {
    uint32_t count;
    uint32_t unit[2];
};

static bool is_logical(const struct flash *f, uint32_t number)
{
    return number + 2 <= f->units;
}

static void set_home(struct store *s, uint32_t logical, uint32_t unit, uint32_t unit_after)
{
    s->home[logical].unit = unit;
    s->home[logical].unit_after = unit_after;
}

/* False where a live unit has no logical number or two live units have the same one. */
static bool find_live(const struct flash *f, struct store *s, struct others *o)
{
    bool has_home[MAX_UNITS] = { false };
    for (uint32_t u = 0; u < f->units; u++) {
        uint32_t logical = unit_logical(f, u);
        if (unit_state(f, u) == STATE_LIVE) {
            if (!is_logical(f, logical) || has_home[logical])
                return false;
            has_home[logical] = true;
            set_home(s, logical, u, u);
        } else if (o->count == 2) {
            return false;
        } else {
            o->unit[o->count++] = u;
        }
    }
    return true;
}

/* Every logical number has its live unit; one unit remains. */
static bool with_all_live(const struct flash *f, struct store *s, uint32_t remaining)
{
    uint32_t logical = unit_logical(f, remaining);
    uint32_t state = unit_state(f, remaining);
    s->spare = remaining;
    if (flash_unit_erased(f, remaining))
        return true;
    if (!is_logical(f, logical) || (state != STATE_RECEIVING && state != STATE_RETIRED))
        return false;
    uint32_t live = s->home[logical].unit;
    bool receiving = state == STATE_RECEIVING;
    s->move.is = true;
    s->move.logical = logical;
    s->move.old_home = receiving ? live : remaining;
    s->move.copy = receiving ? remaining : live;
    s->home[logical].unit_after = s->move.copy;
    return true;
}

/* One logical number has no live unit: its home is retired and its copy still receiving. */
static bool with_one_retired(const struct flash *f, struct store *s, const struct others *o)
{
    uint32_t logical = unit_logical(f, o->unit[0]);
    bool first_retired = unit_state(f, o->unit[0]) == STATE_RETIRED;
    uint32_t home = o->unit[first_retired ? 0 : 1];
    uint32_t copy = o->unit[first_retired ? 1 : 0];
    if (!is_logical(f, logical) || unit_logical(f, o->unit[1]) != logical)
        return false;
    if (unit_state(f, home) != STATE_RETIRED || unit_state(f, copy) != STATE_RECEIVING)
        return false;
    s->move = (struct move){ .is = true, .logical = logical, .old_home = home, .copy = copy };
    set_home(s, logical, home, copy);
    s->spare = copy;
    return true;
}

/* With U - 2 distinct live numbers the missing one must be the pair's own. */
static bool no_live_unit_has(const struct flash *f, uint32_t logical)
{
    for (uint32_t u = 0; u < f->units; u++)
        if (unit_state(f, u) == STATE_LIVE && unit_logical(f, u) == logical)
            return false;
    return true;
}

bool homes_find(const struct flash *f, struct store *s)
{
    struct others o = { 0, { 0, 0 } };
    if (!find_live(f, s, &o))
        return false;
    if (o.count == 1)
        return with_all_live(f, s, o.unit[0]);
    return o.count == 2 && no_live_unit_has(f, unit_logical(f, o.unit[0])) && with_one_retired(f, s, &o);
}
