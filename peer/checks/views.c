/* The views, the handles and the listing of a settled image against the model. */
#include "calls.h"
#include "checks.h"

#include <inttypes.h>
#include <stdio.h>
#include <string.h>

#include "../store/listing.h"
#include "random.h"

enum { ALL_FILES_UP_TO = 4096 };

static bool shows(const struct run *r, struct answer a, const struct content *c)
{
    return answer_content_is(&r->bench, a, c->bytes, c->length);
}

static bool same_handle(struct handle a, struct handle b)
{
    return a.unit == b.unit && a.position == b.position;
}

void check_read(struct run *r, const struct model *m, const struct call *c)
{
    struct prediction p = model_predict(m, &r->bench, c);
    struct answer a = run_call(r, c, 0);
    run_require(r, a.number == p.number, "a read gives another number");
    run_require(r, a.from == p.from, "a read says that it came from elsewhere");
    if (a.number != DONE)
        return;
    const struct entry *at = model_at(m, c->at);
    const struct content *content = c->kind == CALL_READ     ? model_committed(m, c->file)
                                    : c->kind == CALL_READTX ? model_in_transaction(m, c->file)
                                                             : &at->committed;
    run_require(r, shows(r, a, content), "a read gives other bytes");
    run_require(r, same_handle(a.at, p.at), "a read gives another handle");
    run_require(r, a.file == (c->kind == CALL_READAT ? at->file : 0), "a read's file number");
}

static void check_file(struct run *r, const struct model *m, uint32_t file)
{
    struct call c = { .kind = CALL_READ, .file = file };
    const struct content *committed = model_committed(m, file);
    check_read(r, m, &c);
    c.kind = CALL_READTX;
    check_read(r, m, &c);
    c.kind = CALL_READAT;
    if (committed != NULL) {
        c.at = committed->at;
        check_read(r, m, &c);
    }
    const struct entry *e = model_entry(m, file);
    if (e != NULL && e->overlay != OVERLAY_NONE) {
        c.at = e->pending.at;
        check_read(r, m, &c);
    }
}

static uint32_t committed_files(const struct model *m)
{
    uint32_t files = 0;
    for (uint32_t i = 0; i < m->pool; i++)
        files += m->entry[i].is_committed;
    return files;
}

/* The listing names every committed file, so that no file more can be there. */
static void check_listing(const struct run *r, const struct model *m)
{
    static char text[MAX_LISTING], due[MAX_LISTING];
    struct flash f = r->bench.flash;
    int n = sprintf(due, "unit=%" PRIu32 "\nunits=%" PRIu32 "\nopen=%d\nfiles=%" PRIu32, f.unit_size, f.units, m->open, committed_files(m));
    for (uint32_t i = 0; i < m->pool; i++) {
        const struct entry *e = &m->entry[i];
        if (e->is_committed)
            n += sprintf(due + n, "\nfile=%" PRIu32 " length=%" PRIu32 " at=%" PRIu32 ":%" PRIu32, e->file, e->committed.length,
                         e->committed.at.unit, e->committed.at.position);
    }
    listing_text(f, "\n", text);
    run_require(r, strcmp(text, due) == 0, "the listing is not the model's");
}

void check_views(struct run *r, const struct model *m)
{
    check_listing(r, m);
    if (r->bench.flash.length <= ALL_FILES_UP_TO) {
        for (uint32_t i = 0; i < m->pool; i++)
            check_file(r, m, m->entry[i].file);
    } else {
        for (uint32_t i = 0; i < 3; i++)
            check_file(r, m, m->entry[random_below(m->pool)].file);
    }
    check_file(r, m, random_below(MAX_FILE + 1));
}

void check_refused(struct run *r, uint32_t number)
{
    for (uint32_t i = 0; i < 3; i++) {
        struct call c;
        random_call(&c, r->bench.flash.units);
        if (c.kind == CALL_FORMAT || c.kind == CALL_MOUNT)
            c.kind = CALL_READ;
        struct answer a = run_call(r, &c, random_below(4));
        run_require(r, a.number == number, "a call is not refused on such an image");
    }
}
