#include "compose.h"

#include "../checks/random.h"

enum { MAX_POSITIONS = (MAX_UNIT_SIZE - HEADER_SIZE) / DESCRIPTOR_SIZE };

/* What the homes composed so far hold. */
struct composed {
    struct bench *bench;
    bool current[MAX_FILE + 1];
    bool pending[MAX_FILE + 1];
    bool takes_pending; /* beside an open transaction, which comes first */
    bool has_open;
    uint32_t files;
    uint32_t greatest; /* length */
};

/* One home: its descriptors, without offsets at first. */
struct draft {
    uint32_t n;
    uint32_t room; /* bytes neither in the array nor in a sector */
    struct descriptor at[MAX_POSITIONS];
};

static void shuffle(uint32_t *items, uint32_t count)
{
    for (uint32_t i = count; i > 1; i--) {
        uint32_t j = random_below(i);
        uint32_t item = items[i - 1];
        items[i - 1] = items[j];
        items[j] = item;
    }
}

static struct descriptor draft_pending(struct composed *c, uint16_t file, uint16_t length)
{
    if (!c->has_open) {
        c->has_open = true;
        return (struct descriptor){ FLAGS_PENDING, 0, 0, TAG_TRANSACTION };
    }
    if (c->pending[file])
        return (struct descriptor){ FLAGS_OLD, 0, 0, (uint16_t)(TAG_DELETE_MARK + file) };
    c->pending[file] = true;
    if (random_chance(25))
        return (struct descriptor){ FLAGS_PENDING, 0, 0, (uint16_t)(TAG_DELETE_MARK + file) };
    return (struct descriptor){ FLAGS_PENDING, 0, length, (uint16_t)(TAG_DATA + file) };
}

static struct descriptor draft_descriptor(struct composed *c)
{
    uint32_t turn = random_below(100);
    uint16_t file = (uint16_t)random_below(c->files);
    uint16_t length = (uint16_t)random_below(c->greatest + 1);
    if (turn < 10)
        return (struct descriptor){ ERASED, ERASED, ERASED, ERASED };
    if (turn < 16)
        return (struct descriptor){ FLAGS_VOID, (uint16_t)random_below(65536), 0, ERASED };
    if (turn < 22)
        return (struct descriptor){ FLAGS_OLD, 0, 0, TAG_TRANSACTION };
    if (turn < 45 && c->takes_pending)
        return draft_pending(c, file, length);
    if (turn < 75 && !c->current[file]) {
        c->current[file] = true;
        return (struct descriptor){ FLAGS_CURRENT, 0, length, (uint16_t)(TAG_DATA + file) };
    }
    return (struct descriptor){ FLAGS_OLD, 0, length, (uint16_t)(TAG_DATA + file) };
}

static bool has_sector(struct descriptor d)
{
    enum kind k = descriptor_kind(d);
    return k != KIND_EMPTY && k != KIND_TORN && k != KIND_VOID && k != KIND_UNLISTED;
}

static uint32_t size_of(struct descriptor d)
{
    return has_sector(d) ? even_size(d.length) : 0;
}

/* Descriptors until one does not fit any more, or about as many as wanted. */
static void draft_home(struct composed *c, struct draft *d, uint32_t wanted)
{
    d->n = 0;
    d->room = c->bench->flash.unit_size - HEADER_SIZE;
    while (d->n < wanted && d->room >= DESCRIPTOR_SIZE + even_size(c->greatest)) {
        d->at[d->n] = draft_descriptor(c);
        d->room -= DESCRIPTOR_SIZE + size_of(d->at[d->n]);
        d->n++;
    }
}

/* From the top down in the order given; now and then there is room between two. */
static void give_offsets(struct draft *d, const uint32_t *order, uint32_t unit_size)
{
    uint32_t low = unit_size;
    uint32_t end = HEADER_SIZE + DESCRIPTOR_SIZE * d->n;
    bool loose = random_chance(30);
    for (uint32_t i = 0; i < d->n; i++) {
        struct descriptor *at = &d->at[order[i]];
        if (!has_sector(*at))
            continue;
        uint32_t hole = loose && random_chance(30) ? random_below(d->room / 2 + 1) / 2 * 2 : 0;
        d->room -= hole;
        low -= hole + size_of(*at);
        at->offset = (uint16_t)low;
        if (at->length == 0 && loose && random_chance(50))
            at->offset = (uint16_t)(end + random_below((unit_size - end) / 2 + 1) * 2);
    }
}

static uint8_t random_fill(uint32_t style)
{
    switch (style) {
    case 0: return 0xFF;
    case 1: return 0;
    default: return random_chance(style == 2 ? 60 : 0) ? 0xFF : (uint8_t)random_below(256);
    }
}

static void put_home(struct composed *c, uint32_t unit, uint32_t logical, const struct draft *d)
{
    struct bench *b = c->bench;
    uint32_t start = flash_unit_start(&b->flash, unit);
    uint32_t style = random_below(5);
    bench_put_word(b, start, (uint16_t)logical);
    bench_put_word(b, start + 2, STATE_LIVE);
    for (uint32_t p = 0; p < d->n; p++)
        bench_put_descriptor(b, unit, p, d->at[p]);
    for (uint32_t i = unit_array(&b->flash, unit).low; i < b->flash.unit_size; i++)
        b->image[start + i] = random_fill(style);
}

static void compose_home(struct composed *c, uint32_t unit, uint32_t logical, uint32_t wanted, bool in_order)
{
    static struct draft d;
    uint32_t order[MAX_POSITIONS];
    draft_home(c, &d, wanted);
    for (uint32_t i = 0; i < d.n; i++)
        order[i] = i;
    if (!in_order)
        shuffle(order, d.n);
    give_offsets(&d, order, c->bench->flash.unit_size);
    put_home(c, unit, logical, &d);
}

void compose(struct bench *b, uint32_t unit_size, uint32_t units)
{
    static const uint32_t lengths[] = { 0, 2, 3, 8, 40, MAX_CONTENT };
    static const uint32_t most[] = { 1, 3, 12, MAX_POSITIONS, MAX_POSITIONS };
    uint32_t place[MAX_UNITS];
    struct composed c = { .bench = b, .takes_pending = random_chance(60) };
    c.files = random_chance(50) ? MAX_FILE + 1 : random_between(1, 12);
    c.greatest = lengths[random_below(6)];
    bool in_order = random_chance(40);
    uint32_t limit = most[random_below(5)];
    bench_erased(b, unit_size, units);
    for (uint32_t u = 0; u < units; u++)
        place[u] = u;
    shuffle(place, random_chance(70) ? units : 1);
    for (uint32_t l = 0; l + 1 < units; l++)
        compose_home(&c, place[l], l, random_chance(15) ? 0 : random_between(1, limit), in_order);
}

/* Homes full of two-byte sectors: in no order, or with those at odd positions, which a reclaim kept, above the others. */
static void compose_full(struct bench *b, uint32_t unit_size, uint32_t units, bool reclaimed)
{
    static struct draft d;
    uint32_t order[MAX_POSITIONS];
    struct composed c = { .bench = b };
    bench_erased(b, unit_size, units);
    for (uint32_t l = 0; l + 1 < units; l++) {
        d.n = (unit_size - HEADER_SIZE) / (DESCRIPTOR_SIZE + 2);
        d.room = 0;
        for (uint32_t p = 0; p < d.n; p++) {
            uint16_t tag = (uint16_t)(TAG_DATA + random_below(256));
            d.at[p] = (struct descriptor){ FLAGS_OLD, 0, 2, tag };
            order[p] = !reclaimed ? p : p < d.n / 2 ? 2 * p + 1 : 2 * (p - d.n / 2);
        }
        if (!reclaimed)
            shuffle(order, d.n);
        give_offsets(&d, order, unit_size);
        put_home(&c, l, l, &d);
    }
}

void compose_crowded(struct bench *b, uint32_t unit_size, uint32_t units)
{
    compose_full(b, unit_size, units, false);
}

void compose_reclaimed(struct bench *b, uint32_t unit_size, uint32_t units)
{
    compose_full(b, unit_size, units, true);
}

/* A descriptor at an empty position or at the array's end, where it fits. */
static void add_descriptor(struct bench *b, uint32_t unit, struct descriptor d)
{
    struct array a = unit_array(&b->flash, unit);
    uint32_t size = size_of(d);
    uint32_t p = 0;
    while (p < a.n && descriptor_kind(unit_descriptor(&b->flash, unit, p)) != KIND_EMPTY)
        p++;
    uint32_t end = HEADER_SIZE + DESCRIPTOR_SIZE * (p < a.n ? a.n : p + 1);
    if (end + size > a.low)
        return;
    if (has_sector(d))
        d.offset = (uint16_t)(a.low - size);
    bench_put_descriptor(b, unit, p, d);
}

static void change_transaction(struct bench *b, const struct store *s, uint16_t flags)
{
    if (s->open.count == 1)
        bench_put_word(b, store_flags_address(&b->flash, s, s->open.at), flags);
}

static void add_pending(struct bench *b, const struct store *s, uint32_t unit)
{
    uint32_t file = random_below(MAX_FILE + 1);
    for (uint32_t i = 0; i <= MAX_FILE && s->pending[file].count == 0; i++)
        file = (file + 1) % (MAX_FILE + 1);
    uint16_t tag = (uint16_t)((random_chance(70) ? TAG_DATA : TAG_DELETE_MARK) + file);
    add_descriptor(b, unit, (struct descriptor){ FLAGS_PENDING, 0, 0, tag });
}

static void leave_unfinished(struct bench *b, const struct store *s, uint32_t unit)
{
    uint32_t file = random_below(MAX_FILE + 1);
    uint16_t tag = (uint16_t)((random_chance(50) ? TAG_DATA : TAG_DELETE_MARK) + file);
    uint16_t about_longest = (uint16_t)random_between(255, 258);
    uint16_t word = random_chance(50) ? ERASED : (uint16_t)random_below(65536);
    switch (s->all_pending > 0 && random_chance(50) ? random_between(2, 6) : random_below(8)) {
    case 0: add_descriptor(b, unit, (struct descriptor){ ERASED, word, ERASED, tag }); break;
    case 1: add_descriptor(b, unit, (struct descriptor){ FLAGS_ALLOCATED, 0, 0, tag }); break;
    case 2: change_transaction(b, s, FLAGS_CURRENT); break;
    case 3: change_transaction(b, s, FLAGS_OLD); break;
    case 4:
    case 5: add_pending(b, s, unit); break;
    case 6:
        change_transaction(b, s, FLAGS_OLD);
        add_pending(b, s, unit);
        break;
    default: add_descriptor(b, unit, (struct descriptor){ FLAGS_OLD, 0, about_longest, tag }); break;
    }
}

void compose_unfinished(struct bench *b)
{
    struct store s;
    if (judge(&b->flash, &s) == GROUP_NOT_SOUND)
        return;
    for (uint32_t i = random_chance(75) ? 1 : 2; i > 0; i--)
        leave_unfinished(b, &s, s.home[random_below(b->flash.units - 1)].unit);
}
