#include "unit.h"

#include <string.h>

enum kind descriptor_kind(struct descriptor d)
{
    switch (d.flags) {
    case ERASED:
        if (d.tag != ERASED)
            return KIND_TORN;
        return d.offset == ERASED && d.length == ERASED ? KIND_EMPTY : KIND_UNLISTED;
    case FLAGS_ALLOCATED: return KIND_ALLOCATED;
    case FLAGS_PENDING: return KIND_PENDING;
    case FLAGS_CURRENT: return KIND_CURRENT;
    case FLAGS_OLD: return KIND_OLD;
    case FLAGS_VOID: return KIND_VOID;
    default: return KIND_UNLISTED;
    }
}

bool descriptor_is_data(struct descriptor d)
{
    return d.tag >= TAG_DATA && d.tag <= TAG_DATA + MAX_FILE;
}

bool descriptor_is_delete_mark(struct descriptor d)
{
    return d.tag >= TAG_DELETE_MARK && d.tag <= TAG_DELETE_MARK + MAX_FILE;
}

bool descriptor_is_transaction(struct descriptor d)
{
    return d.tag == TAG_TRANSACTION;
}

uint32_t descriptor_file(struct descriptor d)
{
    return d.tag & 0xFF;
}

uint32_t even_size(uint32_t length)
{
    return length + length % 2;
}

uint16_t unit_logical(const struct flash *f, uint32_t unit)
{
    return flash_word(f, flash_unit_start(f, unit));
}

uint16_t unit_state(const struct flash *f, uint32_t unit)
{
    return flash_word(f, flash_unit_start(f, unit) + 2);
}

uint32_t unit_descriptor_address(const struct flash *f, uint32_t unit, uint32_t position)
{
    return flash_unit_start(f, unit) + HEADER_SIZE + DESCRIPTOR_SIZE * position;
}

struct descriptor unit_descriptor(const struct flash *f, uint32_t unit, uint32_t position)
{
    uint32_t at = unit_descriptor_address(f, unit, position);
    struct descriptor d = { .flags = flash_word(f, at + AT_FLAGS),
                            .offset = flash_word(f, at + AT_OFFSET),
                            .length = flash_word(f, at + AT_LENGTH),
                            .tag = flash_word(f, at + AT_TAG) };
    return d;
}

/* Allocated, pending, current and old ones have a sector, and so an offset; an unlisted kind has none. */
static bool kind_has_offset(enum kind k)
{
    return k == KIND_ALLOCATED || k == KIND_PENDING || k == KIND_CURRENT || k == KIND_OLD;
}

struct array unit_array(const struct flash *f, uint32_t unit)
{
    struct array a = { .n = 0, .low = f->unit_size };
    for (uint32_t p = 0; HEADER_SIZE + DESCRIPTOR_SIZE * (p + 1) <= a.low; p++) {
        struct descriptor d = unit_descriptor(f, unit, p);
        enum kind k = descriptor_kind(d);
        if (k != KIND_EMPTY)
            a.n = p + 1;
        if (kind_has_offset(k) && d.offset < a.low)
            a.low = d.offset;
    }
    return a;
}

uint32_t array_gap(struct array a)
{
    return a.low - HEADER_SIZE - DESCRIPTOR_SIZE * a.n;
}

/* A reclaim keeps what is pending or current, the open transaction with it. */
bool unit_is_kept(const struct flash *f, uint32_t unit, uint32_t position)
{
    enum kind k = descriptor_kind(unit_descriptor(f, unit, position));
    return k == KIND_PENDING || k == KIND_CURRENT;
}

static bool tag_and_length_ok(struct descriptor d)
{
    if (descriptor_is_data(d))
        return d.length <= MAX_CONTENT;
    return (descriptor_is_delete_mark(d) || descriptor_is_transaction(d)) && d.length == 0;
}

/* Marks the sector's bytes in used; false where one of them is another sector's. */
static bool take_bytes(uint8_t *used, uint32_t offset, uint32_t size)
{
    for (uint32_t i = offset; i < offset + size; i++) {
        if (used[i])
            return false;
        used[i] = 1;
    }
    return true;
}

static bool sector_ok(const struct flash *f, struct array a, struct descriptor d, uint8_t *used)
{
    if (!tag_and_length_ok(d) || d.offset % 2 != 0)
        return false;
    uint32_t size = even_size(d.length);
    if (d.offset < HEADER_SIZE + DESCRIPTOR_SIZE * a.n || d.offset + size > f->unit_size)
        return false;
    return take_bytes(used, d.offset, size);
}

static bool sectors_ok(const struct flash *f, uint32_t unit, struct array a)
{
    uint8_t used[MAX_UNIT_SIZE];
    memset(used, 0, f->unit_size);
    for (uint32_t p = 0; p < a.n; p++) {
        struct descriptor d = unit_descriptor(f, unit, p);
        enum kind k = descriptor_kind(d);
        if (k == KIND_UNLISTED)
            return false;
        if (kind_has_offset(k) && !sector_ok(f, a, d, used))
            return false;
    }
    return true;
}

bool unit_home_ok(const struct flash *f, uint32_t unit, struct array a)
{
    uint32_t start = flash_unit_start(f, unit);
    if (!flash_all_erased(f, start + 4, HEADER_SIZE - 4) || !sectors_ok(f, unit, a))
        return false;
    uint32_t array_end = HEADER_SIZE + DESCRIPTOR_SIZE * a.n;
    return flash_all_erased(f, start + array_end, array_gap(a));
}
