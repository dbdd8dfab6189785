#include "table.h"

#include <string.h>

static const struct table_entry no_file = { ENTRY_NO_FILE, 0, 0, 0 };
static const struct table_entry mark = { ENTRY_MARK, 0, 0, 0 };

static struct answer only_number(uint32_t number)
{
    return (struct answer){ .number = number };
}

bool table_usable(const struct table *t)
{
    uint8_t first = t->entry[0].state;
    return t->entries == TABLE_ENTRIES && (first == ENTRY_NO_FILE || first == ENTRY_FILE);
}

bool table_same(const struct table *a, const struct table *b)
{
    return a->entries == b->entries && memcmp(a->entry, b->entry, a->entries * sizeof a->entry[0]) == 0;
}

static struct table_entry file_at(const struct flash *f, const struct store *s, struct handle at)
{
    return (struct table_entry){ ENTRY_FILE, (uint8_t)at.unit, (uint16_t)at.position, store_descriptor(f, s, at).length };
}

/* The table of a settled image. */
static void fill_from(const struct flash *f, struct table *t)
{
    struct store s;
    if (store_decode(f, &s) != DONE)
        return;
    for (uint32_t file = 0; file <= MAX_FILE; file++)
        t->entry[file] = s.current[file].count > 0 ? file_at(f, &s, s.current[file].at) : no_file;
}

/* What the table has to say before a call is made, or DONE. 12 comes after 2, 3 and 4, and mount, format and fill never give it. */
static uint32_t first_refusal(const struct flash *f, const struct table *t, bool fills)
{
    struct store s;
    if (!flash_geometry_ok(f) || t->entries != TABLE_ENTRIES)
        return BAD_GEOMETRY;
    if (fills || table_usable(t))
        return DONE;
    uint32_t refusal = store_decode(f, &s);
    return refusal != DONE ? refusal : STALE_TABLE;
}

/* A stop marks the first entry, with no step made too. */
static struct answer left_by(struct table *t, struct answer a)
{
    if (a.number == STOPPED)
        t->entry[0] = mark;
    return a;
}

static struct answer filled_by(const struct flash *f, struct table *t, struct answer a)
{
    if (a.number == DONE)
        fill_from(f, t);
    return left_by(t, a);
}

struct answer table_format(struct flash f, struct table *t, uint32_t allowance)
{
    uint32_t refusal = first_refusal(&f, t, true);
    return refusal != DONE ? only_number(refusal) : filled_by(&f, t, store_format(f, allowance));
}

struct answer table_mount(struct flash f, struct table *t, uint32_t allowance)
{
    uint32_t refusal = first_refusal(&f, t, true);
    return refusal != DONE ? only_number(refusal) : filled_by(&f, t, store_mount(f, allowance));
}

struct answer table_begin(struct flash f, struct table *t, uint32_t allowance)
{
    uint32_t refusal = first_refusal(&f, t, false);
    return refusal != DONE ? only_number(refusal) : left_by(t, store_begin(f, allowance));
}

struct answer table_write(struct flash f, struct table *t, uint32_t file, const uint8_t *content, uint32_t length, uint32_t allowance)
{
    uint32_t refusal = first_refusal(&f, t, false);
    return refusal != DONE ? only_number(refusal) : left_by(t, store_write(f, file, content, length, allowance));
}

struct answer table_delete(struct flash f, struct table *t, uint32_t file, uint32_t allowance)
{
    uint32_t refusal = first_refusal(&f, t, false);
    return refusal != DONE ? only_number(refusal) : left_by(t, store_delete(f, file, allowance));
}

/* What the commit is about to make of the files that it touches; no other entry. */
static void mend(const struct flash *f, const struct store *s, struct table *t)
{
    for (uint32_t file = 0; file <= MAX_FILE; file++) {
        struct found pending = s->pending[file];
        if (pending.count == 0)
            continue;
        bool deletes = descriptor_is_delete_mark(store_descriptor(f, s, pending.at));
        t->entry[file] = deletes ? no_file : file_at(f, s, pending.at);
    }
}

struct answer table_commit(struct flash f, struct table *t, uint32_t allowance)
{
    struct store s;
    uint32_t refusal = first_refusal(&f, t, false);
    if (refusal != DONE)
        return only_number(refusal);
    struct table mended = *t;
    if (store_decode(&f, &s) == DONE)
        mend(&f, &s, &mended);
    struct answer a = store_commit(f, allowance);
    if (a.number == DONE)
        *t = mended;
    return left_by(t, a);
}

struct answer table_abort(struct flash f, struct table *t, uint32_t allowance)
{
    uint32_t refusal = first_refusal(&f, t, false);
    return refusal != DONE ? only_number(refusal) : left_by(t, store_abort(f, allowance));
}

struct answer table_fill(struct flash f, struct table *t)
{
    struct store s;
    uint32_t refusal = first_refusal(&f, t, true);
    if (refusal == DONE)
        refusal = store_decode(&f, &s);
    return filled_by(&f, t, only_number(refusal));
}

/* The unit that a logical number is read from, of any image: the first live one, else the first retired one; U where there is none. */
static uint32_t unit_of(const struct flash *f, uint32_t logical)
{
    static const uint16_t states[] = { STATE_LIVE, STATE_RETIRED };
    for (uint32_t i = 0; i < 2; i++)
        for (uint32_t u = 0; u < f->units; u++)
            if (unit_logical(f, u) == logical && unit_state(f, u) == states[i])
                return u;
    return f->units;
}

/* Whether the image has at the entry's handle current data of this file, of the entry's length, where a sector may lie; and the answer. */
static bool borne_out(const struct flash *f, struct table_entry e, uint32_t file, struct answer *a)
{
    if (e.state != ENTRY_FILE || e.unit > f->units - 2)
        return false;
    uint32_t unit = unit_of(f, e.unit);
    if (unit == f->units)
        return false;
    struct array array = unit_array(f, unit);
    if (e.position >= array.n)
        return false;
    struct descriptor d = unit_descriptor(f, unit, e.position);
    if (descriptor_kind(d) != KIND_CURRENT || d.tag != TAG_DATA + file || d.length != e.length)
        return false;
    bool lies = d.length <= MAX_CONTENT && d.offset % 2 == 0 && d.offset >= HEADER_SIZE + DESCRIPTOR_SIZE * array.n &&
                d.offset + even_size(d.length) <= f->unit_size;
    *a = (struct answer){ .number = DONE, .at = { e.unit, e.position }, .length = d.length };
    if (d.length > 0)
        a->start = flash_unit_start(f, unit) + d.offset;
    return lies;
}

struct answer table_read(struct flash f, const struct table *t, uint32_t file)
{
    struct answer a;
    struct store s;
    if (!flash_geometry_ok(&f) || t->entries != TABLE_ENTRIES)
        return only_number(BAD_GEOMETRY);
    bool looks = table_usable(t) && file <= MAX_FILE;
    if (looks && t->entry[file].state == ENTRY_NO_FILE)
        return only_number(ABSENT);
    if (looks && borne_out(&f, t->entry[file], file, &a))
        return a;
    uint32_t refusal = store_decode(&f, &s);
    if (refusal != DONE)
        return only_number(refusal);
    return only_number(table_usable(t) && file > MAX_FILE ? BAD_FILE : STALE_TABLE);
}
