/* The laws for the screens: two ways to one map, compared by what is read of it. */
#include <string.h>

#include "../store/listing.h"
#include "calls.h"
#include "checks.h"
#include "random.h"

enum { MAX_BODY = 5, MAX_ROW = 3, FEW_FILES = 4, ALL_FILES_UP_TO = 2048 };

struct body {
    uint32_t count;
    struct call change[MAX_BODY * MAX_ROW];
};

static const struct call call_begin = { .kind = CALL_BEGIN };
static const struct call call_commit = { .kind = CALL_COMMIT };
static const struct call call_abort = { .kind = CALL_ABORT };

/* Changes of a few files, so that some file has more than one. */
static void random_body(const struct model *m, struct body *b)
{
    b->count = random_below(MAX_BODY + 1);
    for (uint32_t i = 0; i < b->count; i++) {
        struct call *c = &b->change[i];
        memset(c, 0, sizeof *c);
        c->kind = random_chance(75) ? CALL_WRITE : CALL_DELETE;
        c->rule = random_chance(50) ? TIGHTEST : LOWEST;
        c->file = m->entry[random_below(m->pool < FEW_FILES ? m->pool : FEW_FILES)].file;
        if (c->kind == CALL_WRITE)
            random_content(c);
    }
}

/* Begin, the changes and the end; a change that is refused changes nothing and is not in `made`,
   behind what was there. A read may come between. False where begin or end is refused. */
static bool make(struct run *r, const struct body *b, struct body *made, const struct call *end)
{
    static const struct call look = { .kind = CALL_READ };
    if (run_call(r, &call_begin, PLENTY).number != DONE)
        return false;
    for (uint32_t i = 0; i < b->count; i++) {
        if (run_call(r, &b->change[i], PLENTY).number == DONE)
            made->change[made->count++] = b->change[i];
        if (random_chance(20))
            run_call(r, &look, 0);
    }
    return run_call(r, end, PLENTY).number == DONE;
}

static const struct call *last_change(const struct body *b, uint32_t file)
{
    for (uint32_t i = b->count; i > 0; i--)
        if (b->change[i - 1].file == file)
            return &b->change[i - 1];
    return NULL;
}

static bool same_read(const struct run *a, const struct run *b, uint32_t file)
{
    struct answer x = store_read(a->bench.flash, file);
    struct answer y = store_read(b->bench.flash, file);
    return x.number == y.number && x.length == y.length && memcmp(a->bench.image + x.start, b->bench.image + y.start, x.length) == 0;
}

/* The file is what its last change made it, or what it was before. */
static bool is_made(const struct run *r, const struct run *before, const struct body *b, uint32_t file)
{
    const struct call *last = last_change(b, file);
    if (last == NULL)
        return same_read(r, before, file);
    struct answer a = store_read(r->bench.flash, file);
    return last->kind == CALL_WRITE ? answer_content_is(&r->bench, a, last->content, last->length) : answer_refuses(a, ABSENT);
}

/* Each file number, 256 too, or of a large image those that the history uses. Without a body: as before. */
static void require_map(const struct run *r, const struct run *before, const struct body *b, const struct model *m, const char *what)
{
    bool all = r->bench.flash.length + before->bench.flash.length <= 2 * ALL_FILES_UP_TO;
    for (uint32_t i = 0; i < (all ? MAX_FILE + 2 : m->pool); i++) {
        uint32_t file = all ? i : m->entry[i].file;
        run_require(r, b == NULL ? same_read(r, before, file) : is_made(r, before, b, file), what);
    }
}

/* Neighbours of different files exchanged, again and again. */
static void exchange(struct body *b)
{
    for (uint32_t i = 0; b->count > 1 && i < 3 * b->count; i++) {
        struct call *c = &b->change[random_below(b->count - 1)];
        if (c[0].file != c[1].file) {
            struct call first = c[0];
            c[0] = c[1];
            c[1] = first;
        }
    }
}

/* Only each file's last change; a deletion of a file that was not there before is left out. */
static void keep_last(struct body *b, const struct run *before)
{
    uint32_t kept = 0;
    for (uint32_t i = 0; i < b->count; i++) {
        const struct call *c = &b->change[i];
        if (last_change(b, c->file) != c)
            continue;
        if (c->kind == CALL_WRITE || store_read(before->bench.flash, c->file).number == DONE)
            b->change[kept++] = *c;
    }
    b->count = kept;
}

/* An image of another geometry with the same map, where it has the room; else the same image. */
static void start_elsewhere(struct run *u, const struct run *r, const struct model *m)
{
    bench_formatted(&u->bench, 512u << random_below(3), random_between(3, 5));
    struct flash f = u->bench.flash;
    bool ok = store_begin(f, PLENTY).number == DONE;
    for (uint32_t i = m->pool; i > 0 && ok; i--) {
        const struct entry *e = &m->entry[i - 1];
        if (e->is_committed)
            ok = store_write(f, e->file, e->committed.bytes, e->committed.length, PLENTY).number == DONE;
    }
    if (ok && store_commit(f, PLENTY).number == DONE)
        counts.other_geometry++;
    else
        run_copy(u, r);
    run_start(u);
}

/* One transaction, or up to three in a row; then one that ends with the same changes. */
static void check_made(const struct run *r, const struct model *m)
{
    static struct run a, u;
    static struct body wanted[MAX_ROW], made, other, again;
    uint32_t row = random_between(1, MAX_ROW);
    run_copy(&a, r);
    run_start(&a);
    made.count = 0;
    for (uint32_t i = 0; i < row; i++) {
        random_body(m, &wanted[i]);
        if (!make(&a, &wanted[i], &made, &call_commit)) {
            counts.law_unmet++;
            return;
        }
    }
    require_map(&a, r, &made, m, "a transaction makes another map than its last changes");
    counts.law_makes++;
    other = made;
    exchange(&other);
    if (row > 1 || random_chance(50))
        keep_last(&other, r);
    again.count = 0;
    start_elsewhere(&u, r, m);
    if (!make(&u, &other, &again, &call_commit) || again.count != other.count) {
        counts.law_unmet++;
        return;
    }
    require_map(&u, &a, NULL, m, row > 1 ? "two commits leave another map than one" : "the other order leaves another map");
    *(row > 1 ? &counts.law_rows : &counts.law_orders) += 1;
}

/* Any calls but format, stopped or not, of which none is a commit that makes a step. */
static void wander(struct run *r, const struct model *m)
{
    static struct call c[MAX_BODY];
    run_call(r, &call_begin, random_chance(50) ? PLENTY : random_below(6));
    for (uint32_t i = 0; i < MAX_BODY; i++) {
        random_call(&c[i], r->bench.flash.units);
        if (c[i].kind == CALL_FORMAT)
            c[i].kind = CALL_WRITE;
        c[i].file = m->entry[random_below(m->pool)].file;
        uint32_t allowance = random_chance(50) ? PLENTY : random_below(20);
        run_call(r, &c[i], c[i].kind == CALL_COMMIT ? 0 : allowance);
    }
}

/* A transaction that is aborted, or dropped by a mount, or calls that commit nothing and a mount. */
static void check_dropped(const struct run *r, const struct model *m)
{
    static struct run a;
    static struct body wanted, made;
    static char before[MAX_LISTING], after[MAX_LISTING];
    run_copy(&a, r);
    run_start(&a);
    made.count = 0;
    random_body(m, &wanted);
    if (random_chance(40)) {
        wander(&a, m);
        run_require(&a, run_call(&a, &call_mount, PLENTY).number == DONE, "a mount is refused");
    } else if (!make(&a, &wanted, &made, random_chance(50) ? &call_abort : &call_mount)) {
        counts.law_unmet++;
        return;
    }
    require_map(&a, r, NULL, m, "a dropped transaction leaves another map");
    listing_text(r->bench.flash, "\n", before);
    listing_text(a.bench.flash, "\n", after);
    run_require(&a, strcmp(before, after) == 0, "a dropped transaction leaves another listing");
    counts.law_dropped++;
}

void check_laws(const struct run *r, const struct model *m)
{
    if (!model_is_settled(m) || m->open)
        return;
    check_made(r, m);
    check_dropped(r, m);
}
