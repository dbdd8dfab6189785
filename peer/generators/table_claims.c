#include "table_claims.h"

#include <inttypes.h>
#include <stdlib.h>
#include <string.h>

#include "../checks/random.h"

enum { SOME_READS = 3, FULL_IN_HUNDRED = 2 };

static struct {
    uint64_t as_without, fresh_after, kept, reads_exactly, done_right, inside, due, touches_only, stop_marks, refusal_keeps, never_stale,
        stale_exactly;
} held;

static void claim(bool ok, uint64_t *count, const char *what)
{
    (*count)++;
    if (ok)
        return;
    fflush(stdout);
    fprintf(stderr, "violation: %s\n", what);
    exit(EXIT_FAILURE);
}

struct answer table_make(struct flash f, struct table *t, const struct call *c, uint32_t allowance)
{
    if (c == NULL)
        return table_fill(f, t);
    switch (c->kind) {
    case CALL_FORMAT: return table_format(f, t, allowance);
    case CALL_MOUNT: return table_mount(f, t, allowance);
    case CALL_BEGIN: return table_begin(f, t, allowance);
    case CALL_WRITE: return table_write(f, t, c->file, c->content, c->length, allowance);
    case CALL_DELETE: return table_delete(f, t, c->file, allowance);
    case CALL_COMMIT: return table_commit(f, t, allowance);
    case CALL_ABORT: return table_abort(f, t, allowance);
    default: return table_read(f, t, c->file);
    }
}

static bool same_answer(struct answer a, struct answer b)
{
    return a.number == b.number && a.steps == b.steps && a.at.unit == b.at.unit && a.at.position == b.at.position && a.file == b.file &&
           a.start == b.start && a.length == b.length && a.from == b.from;
}

static bool same_entry(struct table_entry a, struct table_entry b)
{
    return a.state == b.state && a.unit == b.unit && a.position == b.position && a.length == b.length;
}

/* The file's entry as the plain read has it. */
static struct table_entry entry_by_read(struct flash f, uint32_t file)
{
    struct answer a = store_read(f, file);
    if (a.number != DONE)
        return (struct table_entry){ ENTRY_NO_FILE, 0, 0, 0 };
    return (struct table_entry){ ENTRY_FILE, (uint8_t)a.at.unit, (uint16_t)a.at.position, (uint16_t)a.length };
}

/* Settled, and each entry says what the committed view shows: presence of all, and handle and length of some or all by plain reads. */
static bool is_fresh(const struct pair *p)
{
    struct store s;
    if (p->table.entries != TABLE_ENTRIES || store_decode(&p->bench.flash, &s) != DONE)
        return false;
    for (uint32_t file = 0; file <= MAX_FILE; file++) {
        struct table_entry e = p->table.entry[file];
        struct found now = s.current[file];
        if (e.state != (now.count > 0 ? ENTRY_FILE : ENTRY_NO_FILE) ||
            (now.count > 0 && (e.unit != now.at.unit || e.position != now.at.position)))
            return false;
    }
    bool all = random_chance(FULL_IN_HUNDRED);
    for (uint32_t i = 0; i < (all ? TABLE_ENTRIES : SOME_READS); i++) {
        uint32_t file = all ? i : random_below(TABLE_ENTRIES);
        if (!same_entry(p->table.entry[file], entry_by_read(p->bench.flash, file)))
            return false;
    }
    return true;
}

static bool fills(const struct call *c)
{
    return c == NULL || c->kind == CALL_FORMAT || c->kind == CALL_MOUNT;
}

static void check_plain(const struct pair *from, const struct pair *to, const struct call *c, uint32_t allowance, struct answer a)
{
    static struct bench plain;
    if (c == NULL || c->kind == CALL_READ || from->table.entries != TABLE_ENTRIES || !(fills(c) || table_usable(&from->table)))
        return;
    plain = from->bench;
    plain.flash.image = plain.image;
    struct answer due = call_make(plain.flash, c, allowance);
    bool same = memcmp(plain.image, to->bench.image, to->bench.flash.length < MAX_IMAGE ? to->bench.flash.length : MAX_IMAGE) == 0;
    claim(same_answer(a, due) && same, &held.as_without, "through a usable table answer and image are the plain call's");
}

/* Without a usable table a call gives 2, 3 and 4 where they are due, and else 12. */
static void check_stale(const struct pair *from, uint32_t given)
{
    struct store s;
    if (table_usable(&from->table))
        return;
    uint32_t due = from->table.entries != TABLE_ENTRIES ? BAD_GEOMETRY : store_decode(&from->bench.flash, &s);
    claim(given == (due == DONE ? STALE_TABLE : due), &held.stale_exactly, "without a usable table 12 is given after 2, 3 and 4");
}

static void check_touched(const struct pair *from, const struct pair *to)
{
    struct store s;
    if (store_decode(&from->bench.flash, &s) != DONE)
        return;
    for (uint32_t file = 0; file <= MAX_FILE; file++)
        if (s.pending[file].count == 0)
            claim(same_entry(from->table.entry[file], to->table.entry[file]), &held.touches_only,
                  "a commit leaves the entries of other files");
}

static void check_stopped(const struct pair *from, const struct pair *to)
{
    struct table due = from->table;
    due.entry[0] = (struct table_entry){ 0, 0, 0, 0 };
    claim(table_same(&due, &to->table) && !table_usable(&to->table), &held.stop_marks, "a stop marks the first entry, and no other");
}

/* What document 01's table has for a read, with 12 after 4, where the table is the one that the image's call left. */
static struct answer due_of_read(const struct pair *p, uint32_t file)
{
    struct answer plain = store_read(p->bench.flash, file);
    if (p->table.entries != TABLE_ENTRIES)
        return (struct answer){ .number = BAD_GEOMETRY };
    bool judged = plain.number == BAD_GEOMETRY || plain.number == BAD_IMAGE || plain.number == UNSETTLED;
    return judged || table_usable(&p->table) ? plain : (struct answer){ .number = STALE_TABLE };
}

/* 12 is due where the table is unusable, or its entry is not what the settled image shows. */
static bool is_due(const struct pair *p, uint32_t file, uint32_t given, uint32_t plain)
{
    bool settled = plain == DONE || plain == ABSENT || plain == BAD_FILE;
    switch (given) {
    case DONE:
    case ABSENT: return true;
    case BAD_GEOMETRY: return plain == BAD_GEOMETRY || p->table.entries != TABLE_ENTRIES;
    case STALE_TABLE:
        return settled &&
               (!table_usable(&p->table) || (file <= MAX_FILE && !same_entry(p->table.entry[file], entry_by_read(p->bench.flash, file))));
    default: return given == plain;
    }
}

static void check_read(const struct pair *p, uint32_t file, struct answer a)
{
    struct answer plain = store_read(p->bench.flash, file);
    bool settled = plain.number == DONE || plain.number == ABSENT || plain.number == BAD_FILE;
    if (p->together)
        claim(same_answer(a, due_of_read(p, file)), &held.reads_exactly, "a read beside the image of the same call gives what is due");
    if (a.number == DONE && settled)
        claim(same_answer(a, plain), &held.done_right, "DONE of a settled image is the plain read's answer");
    if (a.number == DONE)
        claim(a.length <= MAX_CONTENT && a.start + a.length <= p->bench.flash.length, &held.inside, "a content lies inside of the image");
    claim(is_due(p, file, a.number, plain.number), &held.due, "2, 3, 4, 5 and 12 are given only where they are due");
}

void check_claims(const struct pair *from, const struct pair *to, const struct call *c, uint32_t allowance, struct answer a)
{
    bool reads = c != NULL && c->kind == CALL_READ;
    check_plain(from, to, c, allowance, a);
    if (fills(c))
        claim(a.number != STALE_TABLE, &held.never_stale, "mount, format and fill never give 12");
    else if (!reads)
        check_stale(from, a.number);
    if (a.number == DONE && !reads && (from->together || fills(c)))
        claim(is_fresh(to), &held.fresh_after, "after a finished call the table equals one filled afresh");
    if (to->together)
        claim(to->table.entries != TABLE_ENTRIES || !table_usable(&to->table) || is_fresh(to), &held.kept,
              "a usable table beside its own image is fresh");
    if (a.number == STOPPED)
        check_stopped(from, to);
    if (a.number > STOPPED || reads)
        claim(table_same(&from->table, &to->table), &held.refusal_keeps, "a refused call or a read leaves the table as it was");
    if (c != NULL && c->kind == CALL_COMMIT && a.number == DONE)
        check_touched(from, to);
    if (reads)
        check_read(from, c->file, a);
}

void print_claims(FILE *out)
{
    fprintf(out,
            "claims as-without=%" PRIu64 " fresh-after=%" PRIu64 " kept=%" PRIu64 " reads-exactly=%" PRIu64 " done-is-right=%" PRIu64
            " stays-inside=%" PRIu64 " due=%" PRIu64 " touches-only=%" PRIu64 " stop-marks=%" PRIu64 " refusal-keeps=%" PRIu64
            " never-stale=%" PRIu64 " stale-exactly=%" PRIu64 "\n",
            held.as_without, held.fresh_after, held.kept, held.reads_exactly, held.done_right, held.inside, held.due, held.touches_only,
            held.stop_marks, held.refusal_keeps, held.never_stale, held.stale_exactly);
}
