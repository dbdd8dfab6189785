/* Damaged images: what must hold of every image, sound or not. */
#include "calls.h"
#include "checks.h"
#include "harm.h"
#include "known.h"
#include "random.h"

/* A sum over the committed files, their handles and their contents. */
static uint64_t map_sum(const struct run *r)
{
    struct store s;
    struct flash f = r->bench.flash;
    uint64_t sum = 0;
    judge(&f, &s);
    for (uint32_t file = 0; file <= MAX_FILE; file++) {
        if (s.current[file].count == 0)
            continue;
        struct handle at = s.current[file].at;
        struct descriptor d = store_descriptor(&f, &s, at);
        uint32_t start = flash_unit_start(&f, s.home[at.unit].unit) + d.offset;
        sum = ((sum * 257 + file) * 257 + at.unit) * 65537 + at.position;
        sum = sum * 65537 + d.length + 1;
        for (uint32_t i = 0; i < d.length; i++)
            sum = sum * 257 + r->bench.image[start + i] + 1;
    }
    return sum;
}

/* The map that a finished mount leaves. */
static uint64_t mounted_sum(const struct run *r)
{
    static struct run whole;
    check_mounts(r, random_chance(15), &whole);
    return map_sum(&whole);
}

/* A call on a settled image: at every stop the map is that before it, or the commit's. */
static void check_call(const struct run *from, const struct call *c)
{
    static struct run whole, r[2];
    run_copy(&whole, from);
    struct answer a = run_call(&whole, c, PLENTY);
    if (a.number != DONE || c->kind >= CALL_READ || c->kind == CALL_FORMAT)
        return;
    uint64_t before = map_sum(from);
    uint64_t after = map_sum(&whole);
    run_require(&whole, c->kind == CALL_COMMIT || before == after, "only a commit changes the map");
    for (uint32_t k = 0; k <= a.steps; k++) {
        struct run *now = &r[k % 2];
        run_copy(now, from);
        struct answer b = run_call(now, c, k);
        run_require(now, b.steps == k && b.number == (k < a.steps ? STOPPED : DONE), "a stop");
        run_require(now, run_judge(now) != GROUP_NOT_SOUND, "not sound after a stop");
        if (k > 0)
            run_require(now, is_one_step(&r[(k + 1) % 2].bench, &now->bench), "not one step");
        if (a.steps <= 12 || k + 3 > a.steps || k < 10)
            run_require(now, mounted_sum(now) == (k > 0 ? after : before), "another map");
    }
}

static void check_settled(const struct run *from)
{
    static struct call c;
    static struct run whole;
    check_mounts(from, random_chance(30), &whole);
    run_require(&whole, map_sum(from) == map_sum(&whole), "a mount changed a settled map");
    for (uint32_t i = 0; i < 3; i++) {
        static const enum call_kind changing[] = { CALL_BEGIN, CALL_WRITE, CALL_DELETE, CALL_COMMIT, CALL_ABORT, CALL_READAT };
        random_call(&c, from->bench.flash.units);
        c.kind = changing[random_below(6)];
        c.file = random_chance(50) ? random_below(2) : c.file;
        check_call(from, &c);
    }
}

static void check_format(const struct run *from)
{
    static const struct call format = { .kind = CALL_FORMAT };
    static struct run r;
    run_copy(&r, from);
    struct answer a = run_call(&r, &format, PLENTY);
    run_require(&r, a.number == DONE && run_judge(&r) == GROUP_SETTLED, "a format");
    run_require(&r, map_sum(&r) == 0, "a format leaves files");
}

/* Geometry numbers or a length that are not as they must be: every call is refused. */
static void check_bad_geometry(const struct run *from)
{
    static struct run r;
    static struct call c;
    static const uint32_t sizes[] = { 0, 1, 511, 256, 513, 768, 8192, 65536, UINT32_MAX };
    run_copy(&r, from);
    struct flash *f = &r.bench.flash;
    switch (random_below(3)) {
    case 0: f->unit_size = sizes[random_below(9)]; break;
    case 1: f->units = random_chance(50) ? f->units + 1 : UINT32_MAX - random_below(3); break;
    default: f->length -= 1 + random_below(2); break;
    }
    run_start(&r);
    counts.damaged++;
    for (uint32_t i = 0; i < 4; i++) {
        random_call(&c, from->bench.flash.units);
        run_require(&r, run_call(&r, &c, PLENTY).number == BAD_GEOMETRY, "a bad geometry");
    }
    run_require(&r, store_judge(*f) == JUDGED_BAD_GEOMETRY, "a bad geometry is judged otherwise");
}

static void check_not_sound(struct run *r)
{
    check_refused(r, BAD_IMAGE);
    run_require(r, run_call(r, &call_mount, 5).number == BAD_IMAGE, "a mount is not refused");
    check_format(r);
}

static void check_known(const struct run *from)
{
    static struct run r;
    run_copy(&r, from);
    if (!make_not_sound(&r.bench))
        return;
    run_start(&r);
    counts.damaged++;
    run_require(&r, run_judge(&r) == GROUP_NOT_SOUND, "judged sound");
    check_not_sound(&r);
}

void check_damaged(const struct run *from)
{
    static struct run r, whole;
    if (random_chance(5))
        check_bad_geometry(from);
    if (random_chance(50))
        check_known(from);
    run_copy(&r, from);
    for (uint32_t i = random_between(1, 2); i > 0; i--)
        harm(&r.bench);
    run_start(&r);
    counts.damaged++;
    enum group g = run_judge(&r);
    if (g == GROUP_NOT_SOUND) {
        check_not_sound(&r);
    } else if (g == GROUP_SETTLED) {
        check_settled(&r);
    } else {
        check_refused(&r, UNSETTLED);
        check_mounts(&r, random_chance(50), &whole);
    }
}
