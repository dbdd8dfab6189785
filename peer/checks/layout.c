/* Where units and sectors stand after a whole call. */
#include "checks.h"

/* A reclaim puts the unit on the spare; all others stay. */
static void check_units(const struct run *last, const struct store *before, const struct store *after, const struct prediction *p)
{
    for (uint32_t l = 0; l + 1 < last->bench.flash.units; l++) {
        bool moved = p->reclaim > 0 && l == p->reclaimed;
        uint32_t due = moved ? before->spare : before->home[l].unit;
        run_require(last, after->home[l].unit == due, "a unit is not where it is due");
    }
}

/* Kept sectors are packed from the top down in the order of their positions; gives low. */
static uint32_t check_packed(const struct run *from, const struct run *last, const struct store *before, const struct store *after,
                             uint32_t logical)
{
    struct flash f = from->bench.flash;
    uint32_t low = f.unit_size;
    for (uint32_t p = 0; p < before->home[logical].array.n; p++) {
        struct handle at = { logical, p };
        struct descriptor old = store_descriptor(&f, before, at);
        if (old.flags != 0xFFFC && old.flags != 0xFFF8)
            continue;
        struct descriptor new = store_descriptor(&last->bench.flash, after, at);
        low -= old.length + old.length % 2;
        run_require(last, new.offset == low &&new.length == old.length &&new.tag == old.tag, "a copied sector is not where it is due");
    }
    return low;
}

static uint32_t due_tag(const struct call *c)
{
    if (c->kind == CALL_BEGIN)
        return 0x3000;
    return (c->kind == CALL_WRITE ? 0x1000 : 0x2000) + c->file;
}

void check_layout(const struct run *from, const struct run *last, const struct call *c, const struct prediction *p)
{
    struct store before, after;
    if (c->kind == CALL_MOUNT)
        return;
    judge(&from->bench.flash, &before);
    judge(&last->bench.flash, &after);
    check_units(last, &before, &after, p);
    if (c->kind == CALL_COMMIT || c->kind == CALL_ABORT)
        return;
    uint32_t low = before.home[p->at.unit].array.low;
    if (p->reclaim > 0)
        low = check_packed(from, last, &before, &after, p->reclaimed);
    counts.reclaims += p->reclaim > 0;
    struct descriptor d = store_descriptor(&last->bench.flash, &after, p->at);
    uint32_t length = c->kind == CALL_WRITE ? c->length : 0;
    run_require(last, d.flags == 0xFFFC && d.offset == low - length - length % 2 && d.length == length && d.tag == due_tag(c),
                "the new descriptor");
}
