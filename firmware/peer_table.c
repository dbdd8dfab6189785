/* The calls through a table for C, answered by the second program. */
#include <string.h>

#include "../include/undernshade_table.h"
#include "../peer/store/table.h"

_Static_assert(sizeof(us_entry) == sizeof(struct table_entry), "an entry is the same to both");

static us_report report(struct answer a)
{
    return (us_report){ a.number, a.steps, a.at.unit, a.at.position, a.file, a.start, a.length, a.from };
}

/* A length that no table has stays one. */
static struct table taken(const us_entry *table, size_t entries)
{
    struct table t = { .entries = entries < MAX_TABLE ? (uint32_t)entries : MAX_TABLE };
    memcpy(t.entry, table, t.entries * sizeof t.entry[0]);
    return t;
}

/* The reads change no byte; the second program's flash has no second type for that. */
static struct flash lent(const uint8_t *image, size_t image_length, uint32_t size, uint32_t units)
{
    return (struct flash){ (uint8_t *)(uintptr_t)image, image_length, size, units };
}

#define THROUGH(call)                                        \
    struct table t = taken(table, entries);                  \
    struct flash f = lent(image, image_length, size, units); \
    struct answer a = call;                                  \
    memcpy(table, t.entry, t.entries * sizeof t.entry[0]);   \
    return report(a)

us_report us_table_format(uint8_t *image, size_t image_length, uint32_t size, uint32_t units, us_entry *table, size_t entries,
                          uint32_t allowance)
{
    THROUGH(table_format(f, &t, allowance));
}

us_report us_table_mount(uint8_t *image, size_t image_length, uint32_t size, uint32_t units, us_entry *table, size_t entries,
                         uint32_t allowance)
{
    THROUGH(table_mount(f, &t, allowance));
}

us_report us_table_begin(uint8_t *image, size_t image_length, uint32_t size, uint32_t units, us_entry *table, size_t entries,
                         uint32_t allowance)
{
    THROUGH(table_begin(f, &t, allowance));
}

us_report us_table_write(uint8_t *image, size_t image_length, uint32_t size, uint32_t units, us_entry *table, size_t entries, uint32_t file,
                         const uint8_t *content, size_t content_length, uint32_t allowance)
{
    uint32_t length = content_length > UINT32_MAX ? UINT32_MAX : (uint32_t)content_length;
    THROUGH(table_write(f, &t, file, content, length, allowance));
}

us_report us_table_delete(uint8_t *image, size_t image_length, uint32_t size, uint32_t units, us_entry *table, size_t entries,
                          uint32_t file, uint32_t allowance)
{
    THROUGH(table_delete(f, &t, file, allowance));
}

us_report us_table_commit(uint8_t *image, size_t image_length, uint32_t size, uint32_t units, us_entry *table, size_t entries,
                          uint32_t allowance)
{
    THROUGH(table_commit(f, &t, allowance));
}

us_report us_table_abort(uint8_t *image, size_t image_length, uint32_t size, uint32_t units, us_entry *table, size_t entries,
                         uint32_t allowance)
{
    THROUGH(table_abort(f, &t, allowance));
}

us_report us_table_fill(const uint8_t *image, size_t image_length, uint32_t size, uint32_t units, us_entry *table, size_t entries)
{
    THROUGH(table_fill(f, &t));
}

us_report us_table_read(const uint8_t *image, size_t image_length, uint32_t size, uint32_t units, const us_entry *table, size_t entries,
                        uint32_t file)
{
    struct table t = taken(table, entries);
    return report(table_read(lent(image, image_length, size, units), &t, file));
}
