#include "tally.h"

#include <inttypes.h>
#include <stdlib.h>

#include "rows.h"

const char *const verdict_name[4] = { "bad-geometry", "bad-image", "unsettled", "settled" };

enum place { PLACE_HEADER, PLACE_DESCRIPTOR, PLACE_GAP, PLACE_COPY, PLACE_SECTOR, PLACES };

static uint64_t images, bytes, damaged, in_use;
static uint64_t crowded[4], by_word[4];
static uint64_t by_verdict[4], by_group[GROUPS], by_size[4], by_units[4], by_place[PLACES];

/* Hashes of the images seen, 0 being none. */
static uint64_t *seen;
static size_t seen_room, seen_count;

static uint64_t hash_of(const struct flash *f)
{
    uint64_t h = UINT64_C(0xCBF29CE484222325);
    uint32_t numbers[] = { f->unit_size, f->units, (uint32_t)f->length };
    for (uint32_t i = 0; i < 3; i++)
        h = (h ^ numbers[i]) * UINT64_C(0x100000001B3);
    for (size_t i = 0; i < f->length && i < MAX_IMAGE; i++)
        h = (h ^ f->image[i]) * UINT64_C(0x100000001B3);
    return h == 0 ? 1 : h;
}

static bool insert(uint64_t *table, size_t room, uint64_t h)
{
    size_t i = (size_t)(h % room);
    while (table[i] != 0 && table[i] != h)
        i = (i + 1) % room;
    bool is_new = table[i] == 0;
    table[i] = h;
    return is_new;
}

static void make_room(void)
{
    size_t room = seen_room == 0 ? 65537 : seen_room * 2 + 1;
    uint64_t *table = calloc(room, sizeof *table);
    if (table == NULL) {
        fputs("peer-images: no memory\n", stderr);
        exit(2);
    }
    for (size_t i = 0; i < seen_room; i++)
        if (seen[i] != 0)
            insert(table, room, seen[i]);
    free(seen);
    seen = table;
    seen_room = room;
}

bool tally_is_new(const struct flash *f)
{
    if (seen_count * 2 >= seen_room)
        make_room();
    bool is_new = insert(seen, seen_room, hash_of(f));
    seen_count += is_new;
    return is_new;
}

/* The place of a byte in the undamaged image; the spare and a copy are one place. */
static enum place place_of(const struct flash *f, const struct store *s, uint32_t at)
{
    uint32_t unit = at / f->unit_size;
    uint32_t within = at % f->unit_size;
    if (unit == s->spare || (s->move.is && unit == s->move.copy))
        return PLACE_COPY;
    struct array a = unit_array(f, unit);
    if (within < HEADER_SIZE)
        return PLACE_HEADER;
    if (within < HEADER_SIZE + DESCRIPTOR_SIZE * a.n)
        return PLACE_DESCRIPTOR;
    return within < a.low ? PLACE_GAP : PLACE_SECTOR;
}

static void count_damage(const struct bench *b, const struct bench *reached)
{
    struct store s;
    bool at[PLACES] = { false };
    if (judge(&reached->flash, &s) == GROUP_NOT_SOUND)
        return;
    for (uint32_t i = 0; i < b->flash.length; i++)
        if (b->image[i] != reached->image[i])
            at[place_of(&reached->flash, &s, i)] = true;
    damaged++;
    in_use += at[PLACE_HEADER] || at[PLACE_DESCRIPTOR] || at[PLACE_GAP];
    for (uint32_t p = 0; p < PLACES; p++)
        by_place[p] += at[p];
}

static void count_geometry(const struct flash *f)
{
    for (uint32_t i = 0; i < 4; i++)
        by_size[i] += f->unit_size == UINT32_C(512) << i;
    by_units[f->units == 3 ? 0 : f->units < 9 ? 1 : f->units < 33 ? 2 : 3]++;
}

/* The sector that a descriptor names; a size of 0 where there is none. */
static struct array sector_of(const struct flash *f, uint32_t unit, uint32_t position)
{
    struct descriptor d = unit_descriptor(f, unit, position);
    enum kind k = descriptor_kind(d);
    bool has = k == KIND_ALLOCATED || k == KIND_PENDING || k == KIND_CURRENT || k == KIND_OLD;
    return (struct array){ has ? even_size(d.length) : 0, d.offset };
}

/* Whether a unit has CROWDED sectors or more that do not lie downward, and whether two of its sectors share one word and no two more. */
enum { CROWDED = 24 };

static void look_at_sectors(const struct flash *f, uint32_t unit, bool *is_crowded, bool *shares_word)
{
    uint32_t n = unit_array(f, unit).n, many = 0, most = 0;
    bool downward = true;
    for (uint32_t p = 0; p < n; p++) {
        struct array d = sector_of(f, unit, p);
        many += d.n > 0;
        for (uint32_t q = 0; q < p && d.n > 0; q++) {
            struct array e = sector_of(f, unit, q);
            uint32_t from = d.low > e.low ? d.low : e.low;
            uint32_t to = d.low + d.n < e.low + e.n ? d.low + d.n : e.low + e.n;
            downward &= e.n == 0 || d.low <= e.low;
            if (e.n > 0 && to > from && to - from > most)
                most = to - from;
        }
    }
    *is_crowded |= many >= CROWDED && !downward;
    *shares_word |= most == 2;
}

static void count_sectors(const struct flash *f, enum judgement j)
{
    bool is_crowded = false, shares_word = false;
    for (uint32_t unit = 0; unit < f->units; unit++)
        if (unit_state(f, unit) != STATE_RECEIVING)
            look_at_sectors(f, unit, &is_crowded, &shares_word);
    crowded[j] += is_crowded;
    by_word[j] += shares_word;
}

enum judgement tally_count(const struct bench *b, const struct bench *reached)
{
    enum judgement j = store_judge(b->flash);
    images++;
    bytes += b->flash.length;
    by_verdict[j]++;
    if (j == JUDGED_BAD_GEOMETRY)
        return j;
    by_group[bench_group(b)]++;
    count_geometry(&b->flash);
    count_sectors(&b->flash, j);
    if (reached != NULL)
        count_damage(b, reached);
    return j;
}

uint64_t tally_images(void)
{
    return images;
}

void tally_print(FILE *out)
{
    static const char *const places[] = { "header", "descriptor", "gap", "copy", "sector" };
    fprintf(out, "images distinct=%" PRIu64 " bytes=%" PRIu64 "\n", images, bytes);
    print_row(out, "verdicts", verdict_name, by_verdict, 4);
    print_row(out, "groups", group_name, by_group, GROUPS);
    print_row(out, "unit-sizes", size_name, by_size, 4);
    print_row(out, "units", units_name, by_units, 4);
    print_row(out, "crowded-in-no-order", verdict_name + 1, crowded + 1, 3);
    print_row(out, "one-word-shared", verdict_name + 1, by_word + 1, 3);
    fprintf(out, "damaged all=%" PRIu64 " header-descriptor-or-gap=%" PRIu64 "\n", damaged, in_use);
    print_row(out, "damaged-in", places, by_place, PLACES);
}
