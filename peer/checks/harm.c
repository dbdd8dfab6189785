/* Harm to one image: bytes, headers, descriptors, gaps, copies and transactions. */
#include "harm.h"

#include <string.h>

#include "../store/move.h"
#include "random.h"

static const uint16_t listed_flags[] = { 0xFFFF, 0xFFFE, 0xFFFC, 0xFFF8, 0xFFF0, 0x0000 };
static const uint16_t listed_states[] = { 0xFFFF, 0xFFFE, 0xFFFC };

static void harm_byte(struct bench *b, uint32_t at)
{
    switch (random_below(4)) {
    case 0: b->image[at] = (uint8_t)random_below(256); break;
    case 1: b->image[at] = 0; break;
    case 2: b->image[at] = 0xFF; break;
    default: b->image[at] &= (uint8_t) ~(1u << random_below(8)); break;
    }
}

static void harm_any_byte(struct bench *b)
{
    uint32_t start = flash_unit_start(&b->flash, random_below(b->flash.units));
    uint32_t within[] = { HEADER_SIZE, HEADER_SIZE + 64, 256, b->flash.unit_size };
    harm_byte(b, start + random_below(within[random_below(4)]));
}

static void harm_header(struct bench *b)
{
    uint32_t start = flash_unit_start(&b->flash, random_below(b->flash.units));
    if (random_chance(50))
        bench_put_word(b, start + 2, listed_states[random_below(3)]);
    else
        bench_put_word(b, start, random_chance(80) ? (uint16_t)random_below(b->flash.units) : 0xFFFF);
}

static void harm_descriptor(struct bench *b, uint32_t unit)
{
    uint32_t n = unit_array(&b->flash, unit).n;
    uint32_t position = random_below(n + 1 < 60 ? n + 1 : 60);
    uint32_t at = unit_descriptor_address(&b->flash, unit, position);
    uint32_t turn = random_below(8);
    uint32_t first = turn < 6 ? 0 : random_below(turn == 6 ? 5 : 4);
    if (turn < 4)
        bench_put_word(b, at + AT_FLAGS, listed_flags[random_below(6)]);
    else if (turn == 4)
        bench_put_word(b, at + AT_OFFSET, (uint16_t)(random_below(b->flash.unit_size / 2 + 2) * 2));
    else if (turn == 5)
        bench_put_word(b, at + AT_LENGTH, (uint16_t)random_below(260));
    else if (turn == 6)
        bench_put_word(b, at + AT_TAG, (uint16_t)(first * 0x1000 + random_below(2)));
    else
        bench_put_word(b, at + 2 * first, (uint16_t)random_below(65536));
}

/* Puts any words of a unit's copy on the spare; now and then all of them, and seals the move. */
void harm_by_move(struct bench *b)
{
    struct store s;
    uint8_t copy[MAX_UNIT_SIZE];
    if (judge(&b->flash, &s) == GROUP_NOT_SOUND || s.move.is)
        return;
    uint32_t logical = random_below(b->flash.units - 1);
    uint32_t home = flash_unit_start(&b->flash, s.home[logical].unit);
    uint32_t spare = flash_unit_start(&b->flash, s.spare);
    uint32_t share = random_chance(50) ? 100 : random_below(100);
    move_copy_of(&b->flash, s.home[logical].unit, (uint16_t)logical, copy);
    for (uint32_t i = 0; i < b->flash.unit_size; i += 2)
        if (i == 0 || random_chance(share))
            memcpy(b->image + spare + i, copy + i, 2);
    if (random_chance(50))
        bench_put_word(b, home + 2, STATE_RETIRED);
    if (random_chance(40))
        bench_put_word(b, spare + 2, STATE_LIVE);
}

/* Makes the transaction, if any, what it is not. */
static void harm_transaction(struct bench *b)
{
    struct store s;
    if (judge(&b->flash, &s) == GROUP_NOT_SOUND || s.open.count + s.committed.count == 0)
        return;
    struct handle at = s.open.count > 0 ? s.open.at : s.committed.at;
    uint32_t address = unit_descriptor_address(&b->flash, s.home[at.unit].unit, at.position);
    bench_put_word(b, address, listed_flags[random_between(2, 4)]);
}

void harm(struct bench *b)
{
    switch (random_below(6)) {
    case 0: harm_any_byte(b); break;
    case 1: harm_header(b); break;
    case 2:
    case 3: harm_descriptor(b, random_below(b->flash.units)); break;
    case 4: harm_by_move(b); break;
    default: harm_transaction(b); break;
    }
}

/* Mostly a home, where the image tells which units are homes. */
static uint32_t random_home(const struct bench *b)
{
    struct store s;
    if (random_chance(10) || judge(&b->flash, &s) == GROUP_NOT_SOUND)
        return random_below(b->flash.units);
    return s.home[random_below(b->flash.units - 1)].unit;
}

void harm_home(struct bench *b)
{
    harm_descriptor(b, random_home(b));
}

void harm_gap(struct bench *b)
{
    uint32_t unit = random_home(b);
    struct array a = unit_array(&b->flash, unit);
    uint32_t start = flash_unit_start(&b->flash, unit);
    uint32_t end = HEADER_SIZE + DESCRIPTOR_SIZE * a.n;
    if (end >= a.low)
        return;
    uint32_t gap = a.low - end;
    uint32_t position = a.n + random_below(3);
    struct descriptor d;
    d.flags = listed_flags[random_below(6)];
    d.offset = (uint16_t)(a.low - random_below(3) * 2);
    d.length = (uint16_t)random_below(4);
    d.tag = (uint16_t)(random_between(1, 3) * 0x1000);
    d.tag = (uint16_t)(d.tag + random_below(2));
    if (random_chance(40) && HEADER_SIZE + DESCRIPTOR_SIZE * (position + 1) <= a.low)
        bench_put_descriptor(b, unit, position, d);
    else
        harm_byte(b, start + end + random_below(random_chance(50) && gap > 16 ? 16 : gap));
}

void harm_edge(struct bench *b)
{
    uint32_t unit = random_home(b);
    uint32_t size = b->flash.unit_size;
    struct array a = unit_array(&b->flash, unit);
    uint32_t edge[] = { 0, 3, 4, HEADER_SIZE - 1, HEADER_SIZE + DESCRIPTOR_SIZE * a.n, a.low > 0 ? a.low - 1 : 0, size - 1 };
    uint32_t at = random_chance(15) ? (uint32_t)b->flash.length - 1 : flash_unit_start(&b->flash, unit) + edge[random_below(7)];
    if (at < b->flash.length)
        harm_byte(b, at);
}

/* A descriptor of a unit that has one, mostly of a home. */
struct spot {
    uint32_t unit, n, position;
    uint32_t at;
    struct descriptor descriptor;
};

/* False where the unit has no descriptor. */
static bool random_spot(const struct bench *b, struct spot *s)
{
    s->unit = random_home(b);
    s->n = unit_array(&b->flash, s->unit).n;
    if (s->n == 0)
        return false;
    s->position = random_below(s->n);
    s->at = unit_descriptor_address(&b->flash, s->unit, s->position);
    s->descriptor = unit_descriptor(&b->flash, s->unit, s->position);
    return true;
}

void harm_bound(struct bench *b)
{
    struct spot s;
    if (!random_spot(b, &s))
        return;
    struct descriptor d = s.descriptor;
    struct descriptor other = unit_descriptor(&b->flash, s.unit, random_below(s.n));
    uint32_t end = HEADER_SIZE + DESCRIPTOR_SIZE * s.n;
    uint32_t top = b->flash.unit_size - even_size(d.length);
    uint32_t offsets[] = { end - 8,           end - 2,           end,           end + 2,       top - 2,           top,
                           top + 2,           d.offset + 1u,     d.offset - 2u, d.offset + 2u, other.offset - 2u, other.offset,
                           other.offset + 2u, b->flash.unit_size };
    uint32_t lengths[] = { 0, 1, 2, d.length + 1u, d.length + 2u, d.length - 1u, 255, 256, 257, 258 };
    uint32_t tags[] = { 0x0FFF, 0x1000, 0x10FF, 0x1100, 0x1FFF, 0x2000, 0x20FF, 0x2100, 0x2FFF, 0x3000, 0x3001, 0x30FF };
    switch (random_below(4)) {
    case 0: bench_put_word(b, s.at + AT_OFFSET, (uint16_t)offsets[random_below(14)]); break;
    case 1: bench_put_word(b, s.at + AT_LENGTH, (uint16_t)lengths[random_below(10)]); break;
    case 2: bench_put_word(b, s.at + AT_TAG, (uint16_t)tags[random_below(12)]); break;
    default: bench_put_word(b, s.at + AT_FLAGS, listed_flags[random_below(6)]); break;
    }
}

static bool has_bytes(struct descriptor d)
{
    return d.flags >= FLAGS_OLD && d.flags <= FLAGS_ALLOCATED && d.length > 0 && d.offset >= HEADER_SIZE;
}

void harm_overlap(struct bench *b)
{
    struct spot s;
    if (!random_spot(b, &s))
        return;
    uint32_t before = s.position > 0 ? s.position - 1 : 0;
    struct descriptor d = s.descriptor;
    struct descriptor other = unit_descriptor(&b->flash, s.unit, random_chance(50) ? random_below(s.n) : before);
    if (!has_bytes(d) || !has_bytes(other))
        return;
    uint32_t below = other.offset - even_size(d.length), above = other.offset + even_size(other.length);
    switch (random_below(6)) {
    case 0: bench_put_word(b, s.at + AT_OFFSET, (uint16_t)below); break;
    case 1: bench_put_word(b, s.at + AT_OFFSET, (uint16_t)above); break;
    case 2: bench_put_word(b, s.at + AT_OFFSET, (uint16_t)(below + 2)); break;
    case 3: bench_put_word(b, s.at + AT_OFFSET, (uint16_t)(above - 2)); break;
    case 4: bench_put_word(b, s.at + AT_OFFSET, (uint16_t)(d.offset - 2)); break;
    default: bench_put_word(b, s.at + AT_LENGTH, (uint16_t)(even_size(d.length) + 1)); break;
    }
}

static void harm_copy_word(struct bench *b, uint32_t copy)
{
    uint32_t size = b->flash.unit_size;
    uint32_t end = HEADER_SIZE + DESCRIPTOR_SIZE * unit_array(&b->flash, copy).n;
    uint32_t within[] = { HEADER_SIZE, end, size };
    uint32_t i = random_chance(15) ? size - 2 : random_below(within[random_below(3)] / 2) * 2;
    uint32_t at = flash_unit_start(&b->flash, copy) + i;
    if (random_chance(30))
        bench_put_word(b, at, ERASED);
    else
        harm_byte(b, at + random_below(2));
}

void harm_copy(struct bench *b)
{
    static const uint16_t states[] = { 0xFFFF, 0xFFFE, 0xFFFC, 0xFFFD, 0xFFF8, 0xFEFC, 0x0000 };
    struct store s;
    if (judge(&b->flash, &s) == GROUP_NOT_SOUND)
        return;
    if (!s.move.is) {
        harm_by_move(b);
        if (judge(&b->flash, &s) == GROUP_NOT_SOUND || !s.move.is)
            return;
    }
    uint32_t unit = random_chance(50) ? s.move.copy : s.move.old_home;
    if (random_chance(20))
        bench_put_word(b, flash_unit_start(&b->flash, unit) + 2, states[random_below(7)]);
    else
        harm_copy_word(b, s.move.copy);
}
