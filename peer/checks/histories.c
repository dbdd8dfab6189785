/* peer-histories COUNT SEED: random histories with stops, each image checked against the model. */
#include <inttypes.h>
#include <stdio.h>
#include <stdlib.h>
#include <string.h>

#include "calls.h"
#include "checks.h"
#include "random.h"

static uint32_t random_unit_size(void)
{
    static const uint32_t sizes[] = { 512, 512, 512, 512, 512, 512, 1024, 1024, 2048, 4096 };
    return sizes[random_below(10)];
}

static uint32_t few_units(uint32_t unit_size)
{
    if (random_chance(70))
        return 3;
    return random_chance(80) ? random_between(3, 6) : random_between(3, most_units(unit_size));
}

/* Distinct files in ascending order. */
static void random_pool(struct model *m)
{
    uint32_t wanted = random_chance(70) ? random_between(1, 8) : random_between(1, MAX_POOL);
    m->pool = 0;
    for (uint32_t file = 0; file <= MAX_FILE && m->pool < wanted; file++)
        if (random_below(MAX_FILE + 1 - file) < wanted - m->pool)
            m->entry[m->pool++].file = file;
}

static enum call_kind choose_open(void)
{
    uint32_t turn = random_below(100);
    if (turn < 58)
        return CALL_WRITE;
    if (turn < 70)
        return CALL_DELETE;
    if (turn < 84)
        return CALL_COMMIT;
    if (turn < 90)
        return CALL_ABORT;
    return turn < 92 ? CALL_MOUNT : turn < 94 ? CALL_READTX : (enum call_kind)random_below(CALL_KINDS);
}

static enum call_kind choose_kind(const struct model *m)
{
    if (!model_is_settled(m))
        return random_chance(55) ? CALL_MOUNT : (enum call_kind)random_below(CALL_KINDS);
    if (m->open)
        return choose_open();
    return random_chance(75) ? CALL_BEGIN : (enum call_kind)random_below(CALL_KINDS);
}

/* Mostly a call that makes sense for the model; a write is of the pool's files or of no file. */
static void choose_call(const struct model *m, struct call *c, uint32_t units)
{
    const struct entry *e = &m->entry[random_below(m->pool)];
    random_call(c, units);
    c->kind = choose_kind(m);
    if (random_chance(96) || (c->kind == CALL_WRITE && c->file <= MAX_FILE))
        c->file = e->file;
    if (e->is_committed && random_chance(80))
        c->at = e->committed.at;
    if (c->kind == CALL_WRITE)
        random_content(c);
}

static void fresh_format(struct run *r, struct model *m)
{
    static const struct call format = { .kind = CALL_FORMAT };
    struct prediction p = model_predict(m, &r->bench, &format);
    static struct run step[2];
    for (uint32_t k = 0; k <= p.steps; k++) {
        run_copy(&step[k % 2], r);
        struct answer a = run_call(&step[k % 2], &format, k);
        run_require(&step[k % 2], answer_is(a, k < p.steps ? STOPPED : DONE, k, 0, 0), "a format");
        if (k > 0)
            run_require(&step[k % 2], is_one_step(&step[(k + 1) % 2].bench, &step[k % 2].bench), "a format's step is not one step");
    }
    run_copy(r, &step[p.steps % 2]);
    model_fresh(m);
    check_image(r, m);
}

static void refused_call(struct run *r, const struct call *c, const struct prediction *p)
{
    struct answer a = run_call(r, c, random_chance(50) ? random_below(8) : PLENTY);
    run_require(r, p->number == ABSENT ? answer_absent(a, p->from) : answer_refuses(a, p->number), "another refusal than is due");
}

/* One call of the main line; the run goes on from one of the images reached. */
static void main_line_call(struct run *r, struct model *m)
{
    static struct call c;
    static struct run next;
    static struct model next_model;
    choose_call(m, &c, r->bench.flash.units);
    struct prediction p = model_predict(m, &r->bench, &c);
    run_start(r);
    if (c.kind >= CALL_READ) {
        check_read(r, m, &c);
    } else if (c.kind == CALL_FORMAT) {
        if (random_chance(10))
            fresh_format(r, m);
    } else if (p.number != DONE) {
        refused_call(r, &c, &p);
    } else if (random_chance(60)) {
        check_whole(r, m, &c, &p);
    } else {
        check_stops(r, m, &c, &p, &next, &next_model);
        run_copy(r, &next);
        *m = next_model;
    }
}

/* Calls that are refused or only read, with any numbers. */
static void side_calls(struct run *r, const struct model *m)
{
    static struct call c;
    for (uint32_t i = 0; i < 3; i++) {
        random_call(&c, r->bench.flash.units);
        if (c.kind == CALL_WRITE && random_chance(50))
            c.length = random_between(MAX_CONTENT, MAX_GIVEN);
        struct prediction p = model_predict(m, &r->bench, &c);
        run_start(r);
        if (c.kind >= CALL_READ)
            check_read(r, m, &c);
        else if (p.number != DONE)
            refused_call(r, &c, &p);
    }
}

static void history(uint64_t count)
{
    static struct run r;
    static struct model m;
    uint32_t unit_size = random_unit_size();
    uint32_t length = random_between(20, 500);
    bench_erased(&r.bench, unit_size, few_units(unit_size));
    for (uint32_t i = 0; random_chance(50) && i < 9; i++)
        r.bench.image[random_below((uint32_t)r.bench.flash.length)] = (uint8_t)random_below(256);
    run_start(&r);
    random_pool(&m);
    fresh_format(&r, &m);
    counts.histories++;
    for (uint32_t i = 0; i < length && counts.calls < count; i++) {
        side_calls(&r, &m);
        main_line_call(&r, &m);
        if (random_chance(20))
            check_damaged(&r);
        check_laws(&r, &m);
    }
}

static void print_counts(void)
{
    printf("calls=%" PRIu64 " stopped=%" PRIu64 " reads=%" PRIu64 "\n", counts.calls, counts.stopped, counts.reads);
    printf("histories=%" PRIu64 " images=%" PRIu64 " damaged=%" PRIu64 " mounts=%" PRIu64 " reclaims=%" PRIu64 "\n", counts.histories,
           counts.images, counts.damaged, counts.mounts, counts.reclaims);
    printf("chains-of-mounts=%" PRIu64 " most-stops-in-one=%" PRIu64 "\n", counts.chains, counts.longest_chain);
    printf("law-makes=%" PRIu64 " law-orders=%" PRIu64 " law-in-a-row=%" PRIu64 " law-dropped=%" PRIu64 " elsewhere=%" PRIu64
           " unmet=%" PRIu64 "\n",
           counts.law_makes, counts.law_orders, counts.law_rows, counts.law_dropped, counts.other_geometry, counts.law_unmet);
    for (uint32_t i = 0; i < NUMBERS; i++)
        printf("%snumber-%" PRIu32 "=%" PRIu64, i > 0 ? " " : "", i, counts.number[i]);
    putchar('\n');
    for (uint32_t i = 0; i < GROUPS; i++)
        printf("%s%s=%" PRIu64, i > 0 ? " " : "", group_name[i], counts.group[i]);
    printf("\ngreatest-mount=%" PRIu32 " bound=%" PRIu32 " unit=%" PRIu32 " units=%" PRIu32 "\n", counts.greatest_mount,
           mount_bound(counts.greatest_unit_size, counts.greatest_units), counts.greatest_unit_size, counts.greatest_units);
    puts("violations=0");
}

int main(int argc, char **argv)
{
    if (argc != 3) {
        fputs("usage: peer-histories COUNT SEED\n", stderr);
        return 2;
    }
    uint64_t count = strtoull(argv[1], NULL, 10);
    random_seed(strtoull(argv[2], NULL, 10));
    while (counts.calls < count)
        history(count);
    print_counts();
    return EXIT_SUCCESS;
}
