/* Stops: every step of a call alone, and the mounts of every image reached. */
#include "checks.h"

#include <string.h>

#include "random.h"

enum { SHORT_LIST = 24, SHORT_MOUNT = 10, MAX_STOPS = 64, CHAIN = 12 };

bool is_one_step(const struct bench *before, const struct bench *after)
{
    uint32_t first = 0;
    uint32_t last = (uint32_t)before->flash.length - 1;
    while (first <= last && before->image[first] == after->image[first])
        first++;
    if (first > last)
        return false;
    while (before->image[last] == after->image[last])
        last--;
    bool cleared = (before->image[first] & after->image[first]) == after->image[first] &&
                   (before->image[last] & after->image[last]) == after->image[last];
    if (first / 2 == last / 2 && cleared)
        return true;
    uint32_t unit = first / before->flash.unit_size;
    return last / before->flash.unit_size == unit && flash_unit_erased(&after->flash, unit);
}

/* The stops tried, ascending, each of them at most once. */
struct stops {
    uint32_t count;
    uint32_t at[MAX_STOPS];
};

static void add_stop(struct stops *s, uint32_t k, uint32_t length)
{
    uint32_t i = s->count;
    if (k > length || s->count == MAX_STOPS)
        return;
    while (i > 0 && s->at[i - 1] > k)
        i--;
    if (i > 0 && s->at[i - 1] == k)
        return;
    memmove(&s->at[i + 1], &s->at[i], (s->count - i) * sizeof s->at[0]);
    s->at[i] = k;
    s->count++;
}

/* From three before to three after, which is where flags change or a unit is erased. */
static void add_around(struct stops *s, uint32_t middle, uint32_t length)
{
    for (uint32_t k = middle < 3 ? 0 : middle - 3; k <= middle + 3; k++)
        add_stop(s, k, length);
}

static struct stops choose_stops(uint32_t length, uint32_t turn, uint32_t every_up_to)
{
    struct stops s = { .count = 0 };
    if (length <= every_up_to) {
        for (uint32_t k = 0; k <= length; k++)
            add_stop(&s, k, length);
        return s;
    }
    add_around(&s, 2, length);
    add_around(&s, turn, length);
    add_around(&s, turn + 4, length);
    add_around(&s, length, length);
    for (uint32_t i = 0; i < 3; i++) {
        uint32_t k = random_below(length);
        add_stop(&s, k, length);
        add_stop(&s, k + 1, length);
    }
    return s;
}

static void note_greatest(const struct run *r, uint32_t steps)
{
    struct flash f = r->bench.flash;
    run_require(r, steps <= mount_bound(f.unit_size, f.units), "a mount over its bound");
    if (steps <= counts.greatest_mount)
        return;
    counts.greatest_mount = steps;
    counts.greatest_unit_size = f.unit_size;
    counts.greatest_units = f.units;
}

/* A mount stopped at k and mounted again ends as one mount does. */
static void check_restart(const struct run *r, const struct run *whole, uint32_t steps, uint32_t k, struct run *part)
{
    run_copy(part, r);
    struct answer a = run_call(part, &call_mount, k);
    run_require(part, answer_is(a, k < steps ? STOPPED : DONE, k, 0, 0), "a stopped mount");
    run_require(part, run_judge(part) != GROUP_NOT_SOUND, "a stopped mount is not sound");
    struct run rest;
    run_copy(&rest, part);
    a = run_call(&rest, &call_mount, PLENTY);
    run_require(&rest, answer_is(a, DONE, steps - k, 0, 0), "the steps left after a stopped mount");
    run_require(&rest, bench_same(&rest.bench, &whole->bench), "a restart leaves another image");
}

/* Mounts with random allowances, whatever each answers, and then one that suffices. */
static void check_chain(const struct run *r, const struct run *whole, uint32_t steps)
{
    struct run chain;
    uint32_t total = 0, stopped = 0, before = random_below(CHAIN);
    run_copy(&chain, r);
    for (uint32_t i = 0; i < before; i++) {
        struct answer a = run_call(&chain, &call_mount, random_below(steps / (before / 2 + 1) + 2));
        total += a.steps;
        stopped += a.number == STOPPED;
    }
    struct answer last = run_call(&chain, &call_mount, PLENTY);
    total += last.steps;
    run_require(&chain, last.number == DONE && total == steps, "a chain of mounts takes other steps");
    run_require(&chain, bench_same(&chain.bench, &whole->bench), "a chain leaves another image");
    counts.chains++;
    if (stopped > counts.longest_chain)
        counts.longest_chain = stopped;
}

static void check_every_restart(const struct run *r, const struct run *whole, uint32_t steps)
{
    static struct run part[2];
    struct stops s = choose_stops(steps, random_below(steps + 1), SHORT_MOUNT);
    for (uint32_t i = 0; i < s.count; i++) {
        check_restart(r, whole, steps, s.at[i], &part[i % 2]);
        if (i > 0 && s.at[i - 1] + 1 == s.at[i])
            run_require(&part[i % 2], is_one_step(&part[(i + 1) % 2].bench, &part[i % 2].bench), "a mount's step is not one step");
    }
}

uint32_t check_mounts(const struct run *r, bool every_stop, struct run *whole)
{
    static struct run part;
    run_copy(whole, r);
    struct answer a = run_call(whole, &call_mount, PLENTY);
    uint32_t steps = a.steps;
    run_require(whole, answer_is(a, DONE, steps, 0, 0), "a mount is refused");
    run_require(whole, run_judge(whole) == GROUP_SETTLED, "a finished mount is not settled");
    run_require(whole, store_read_transaction(whole->bench.flash, 0).number == NO_TRANSACTION, "a finished mount leaves a transaction");
    note_greatest(r, steps);
    if (every_stop)
        check_every_restart(r, whole, steps);
    else if (random_chance(50))
        check_restart(r, whole, steps, random_below(steps + 1), &part);
    else
        check_chain(r, whole, steps);
    return steps;
}

void check_image(const struct run *r, const struct model *m)
{
    static struct run look, whole;
    struct model mounted = *m;
    struct prediction p = { .number = DONE, .steps = model_mount_steps(m) };
    enum group g = run_judge(r);
    run_require(r, g != GROUP_NOT_SOUND, "not sound");
    run_require(r, (g == GROUP_SETTLED) == model_is_settled(m), "settled or not");
    run_copy(&look, r);
    if (g == GROUP_SETTLED)
        check_views(&look, m);
    else
        check_refused(&look, UNSETTLED);
    uint32_t steps = check_mounts(r, random_chance(12), &whole);
    run_require(&whole, steps == p.steps, "a mount takes other steps than are left");
    model_apply(&mounted, &call_mount, &p, p.steps);
    check_views(&whole, &mounted);
}

static void check_stop(const struct run *r, struct answer a, const struct prediction *p, uint32_t k)
{
    if (k < p->steps)
        run_require(r, answer_is(a, STOPPED, k, 0, 0), "a stopped call's answer");
    else
        run_require(r, answer_is(a, DONE, p->steps, p->at.unit, p->at.position), "a finished call's answer");
}

/* With an allowance to spare the image is that of the whole list. */
static void check_spare_allowance(const struct run *from, const struct call *c, const struct prediction *p, const struct run *last)
{
    static struct run r;
    run_copy(&r, from);
    struct answer a = run_call(&r, c, random_chance(50) ? UINT32_MAX : p->steps + 1);
    check_stop(&r, a, p, p->steps);
    run_require(&r, bench_same(&r.bench, &last->bench), "the allowance to spare changes the image");
}

/* Each single step of a long list, without a look at the mounts. */
static void check_single_steps(const struct run *from, const struct call *c, const struct prediction *p)
{
    static struct run r[2];
    for (uint32_t k = 0; k <= p->steps; k++) {
        struct run *now = &r[k % 2];
        run_copy(now, from);
        check_stop(now, run_call(now, c, k), p, k);
        if (k > 0)
            run_require(now, is_one_step(&r[(k + 1) % 2].bench, &now->bench), "not one step");
    }
}

void check_whole(struct run *r, struct model *m, const struct call *c, const struct prediction *p)
{
    static struct run from;
    run_copy(&from, r);
    check_stop(r, run_call(r, c, PLENTY), p, p->steps);
    model_apply(m, c, p, p->steps);
    run_require(r, run_judge(r) == GROUP_SETTLED, "a finished call is not settled");
    check_views(r, m);
    check_layout(&from, r, c, p);
}

void check_stops(const struct run *from, const struct model *m, const struct call *c, const struct prediction *p, struct run *next,
                 struct model *next_model)
{
    static struct run r[2];
    struct stops s = choose_stops(p->steps, c->kind == CALL_MOUNT ? m->mend : p->reclaim, SHORT_LIST);
    uint32_t picked = random_chance(60) ? s.count - 1 : random_below(s.count);
    for (uint32_t i = 0; i < s.count; i++) {
        struct run *now = &r[i % 2];
        struct model after = *m;
        run_copy(now, from);
        check_stop(now, run_call(now, c, s.at[i]), p, s.at[i]);
        if (i > 0 && s.at[i - 1] + 1 == s.at[i])
            run_require(now, is_one_step(&r[(i + 1) % 2].bench, &now->bench), "not one step");
        model_apply(&after, c, p, s.at[i]);
        check_image(now, &after);
        if (i == picked) {
            run_copy(next, now);
            *next_model = after;
        }
    }
    const struct run *last = &r[(s.count + 1) % 2];
    check_spare_allowance(from, c, p, last);
    check_layout(from, last, c, p);
    if (random_chance(6))
        check_single_steps(from, c, p);
}
