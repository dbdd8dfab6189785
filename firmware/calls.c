#include "calls.h"

#include <stdarg.h>
#include <stdio.h>
#include <stdlib.h>
#include <string.h>

bool geometry_is_good(uint32_t size, uint32_t units)
{
    return (size == 512 || size == 1024 || size == 2048 || size == 4096) && units >= 3 && units <= 64 && size * units <= LARGEST_IMAGE;
}

void flash_new(struct flash *f, uint32_t size, uint32_t units, uint8_t byte)
{
    f->size = size;
    f->units = units;
    f->length = (size_t)size * units;
    memset(f->bytes, byte, f->length);
    flash_lose_power(f);
}

void flash_copy(struct flash *to, const struct flash *from)
{
    to->size = from->size;
    to->units = from->units;
    to->length = from->length;
    memcpy(to->bytes, from->bytes, from->length);
    memcpy(to->table, from->table, sizeof to->table);
}

void flash_lose_power(struct flash *f)
{
    memset(f->table, 0, sizeof f->table);
}

/* What every call takes first: the image, and then the table. */
#define IMAGE f->bytes, f->length, f->size, f->units
#define TABLE f->table, US_ENTRIES

/* A pass does not know the table: stopped it leaves none that may be used, finished one that is filled again. */
static us_report flash_give(struct flash *f, const struct call *c, uint32_t allowance)
{
    us_pass p = us_give(IMAGE, c->first, c->second, allowance);
    if (p.number == US_STOPPED)
        flash_lose_power(f);
    else if (p.steps > 0)
        us_table_fill(IMAGE, TABLE);
    return (us_report){ .number = p.number, .steps = p.steps, .file = p.number == US_DONE ? 2 + p.pass : 0 };
}

us_report flash_call(struct flash *f, const struct call *c, uint32_t allowance)
{
    switch (c->verb) {
    case FORMAT: return us_table_format(IMAGE, TABLE, allowance);
    case BEGIN: return us_table_begin(IMAGE, TABLE, allowance);
    case WRITE: return us_table_write(IMAGE, TABLE, c->file, c->content, c->length, allowance);
    case DELETE: return us_table_delete(IMAGE, TABLE, c->file, allowance);
    case COMMIT: return us_table_commit(IMAGE, TABLE, allowance);
    case ABORT: return us_table_abort(IMAGE, TABLE, allowance);
    case GIVE: return flash_give(f, c, allowance);
    default: return flash_mount(f, allowance);
    }
}

us_report flash_mount(struct flash *f, uint32_t allowance)
{
    return us_table_mount(IMAGE, TABLE, allowance);
}

bool flash_is_settled(const struct flash *f)
{
    uint32_t number = us_read(IMAGE, 0).number;
    return number == US_DONE || number == US_ABSENT;
}

const uint8_t *flash_read(const struct flash *f, uint32_t file, size_t *length)
{
    us_report r = us_table_read(IMAGE, TABLE, file);
    *length = 0;
    if (r.number != US_DONE || r.start > f->length || r.length > f->length - r.start)
        return NULL;
    *length = r.length;
    return f->bytes + r.start;
}

const char *number_in_words(uint32_t number)
{
    static const char *const words[] = { "DONE",           "STOPPED", "BAD GEOMETRY", "BAD IMAGE", "UNSETTLED",  "BAD FILE",   "TOO LONG",
                                         "NO TRANSACTION", "OPEN",    "ABSENT",       "NO ROOM",   "BAD HANDLE", "STALE TABLE" };
    static const char *const pass_words[] = { "NO LIST", "BAD LIST", "NOT ON LIST", "SAME PERSON", "BAD REGISTER", "REGISTER FULL" };
    if (number >= US_NO_LIST && number <= US_REGISTER_FULL)
        return pass_words[number - US_NO_LIST];
    return number < sizeof words / sizeof words[0] ? words[number] : "a number that no call gives";
}

bool begins_a_transaction(const struct call *c)
{
    return c->verb == FORMAT || c->verb == BEGIN || (c->verb == GIVE && c->due != US_OPEN);
}

bool ends_a_transaction(const struct call *c)
{
    return c->verb == COMMIT || c->verb == ABORT || (c->verb == GIVE && c->due != US_OPEN);
}

struct call *history_add(struct history *h, enum verb verb, uint32_t file, const char *content, const char *title, ...)
{
    va_list values;
    size_t length = strlen(content);
    if (h->count == MOST_CALLS || length > LARGEST_CONTENT) {
        fprintf(stderr, "terminal: %s\n", length > LARGEST_CONTENT ? "a content is over 256 bytes" : "too many calls");
        exit(2);
    }
    struct call *c = &h->call[h->count++];
    *c = (struct call){ .verb = verb, .file = file, .due = US_DONE, .length = length };
    memcpy(c->content, content, length);
    va_start(values, title);
    vsnprintf(c->title, sizeof c->title, title, values);
    va_end(values);
    return c;
}
