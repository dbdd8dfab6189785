/* peer-images COUNT SEED FILE: distinct images as records, and a line with the verdict on each. */
#include <inttypes.h>
#include <stdio.h>
#include <stdlib.h>
#include <string.h>

#include "../checks/calls.h"
#include "../checks/harm.h"
#include "../checks/known.h"
#include "../checks/random.h"
#include "asked.h"
#include "compose.h"
#include "record.h"
#include "tally.h"

static FILE *out;
static uint64_t wanted;

/* The files that a history uses. */
static uint32_t first_file, files;

static uint32_t random_unit_size(void)
{
    static const uint32_t sizes[] = { 512, 512, 512, 512, 512, 512, 1024, 1024, 2048, 4096 };
    return sizes[random_below(10)];
}

/* Writes the image if it is a new one; reached is what it was damaged from, or NULL. */
static void give(const struct bench *b, const struct bench *reached)
{
    if (tally_images() == wanted || !tally_is_new(&b->flash))
        return;
    record_write(out, &b->flash);
    puts(verdict_name[tally_count(b, reached)]);
}

/* Numbers at the limits, and the length that is their product. */
static void choose_limits(struct flash *f)
{
    static const uint32_t pairs[][2] = { { 512, 0 },   { 512, 1 },   { 512, 2 },   { 512, 65 },  { 512, 128 }, { 1024, 2 },
                                         { 1024, 65 }, { 2048, 2 },  { 2048, 33 }, { 4096, 2 },  { 4096, 17 }, { 0, 0 },
                                         { 0, 3 },     { 256, 3 },   { 256, 6 },   { 511, 3 },   { 513, 3 },   { 514, 4 },
                                         { 768, 4 },   { 1536, 3 },  { 3072, 3 },  { 4095, 3 },  { 4097, 3 },  { 8192, 3 },
                                         { 8192, 8 },  { 16384, 4 }, { 21845, 3 }, { 32768, 2 }, { 65536, 1 }, { 1, 3 } };
    uint32_t i = random_below(sizeof pairs / sizeof pairs[0]);
    f->unit_size = pairs[i][0];
    f->units = pairs[i][1];
    f->length = (size_t)f->unit_size * f->units;
}

/* Numbers or a length that do not fit together, or fit together otherwise than before. */
static void give_geometry(const struct bench *from)
{
    static struct bench b;
    static const uint32_t sizes[] = { 0, 1, 2, 256, 511, 513, 768, 1536, 3072, 8192, 65536, 0x80000000, UINT32_MAX };
    bench_copy(&b, from);
    memset(b.image + from->flash.length, 0xFF, MAX_IMAGE - from->flash.length);
    struct flash *f = &b.flash;
    switch (random_below(7)) {
    case 0: f->unit_size = sizes[random_below(13)]; break;
    case 1: f->units = random_chance(50) ? f->units + 1 : UINT32_MAX - random_below(3); break;
    case 2: f->length -= random_between(1, 3); break;
    case 3: f->length = random_below(2) ? random_below(1024) : f->length + random_between(1, 3); break;
    case 4: /* the product is right, the numbers are not those of before */
        f->unit_size <<= random_between(1, 3);
        f->units = (uint32_t)(f->length / f->unit_size);
        break;
    case 5: choose_limits(f); break;
    default: /* the product wraps to the length */ f->units = (uint32_t)((UINT64_C(1) << 32) / f->unit_size + f->units); break;
    }
    give(&b, NULL);
}

static void give_damaged(const struct bench *from)
{
    static struct bench b;
    bench_copy(&b, from);
    for (uint32_t i = random_chance(70) ? 1 : 2; i > 0; i--) {
        uint32_t turn = random_below(100);
        if (turn < 30)
            harm(&b);
        else if (turn < 40)
            harm_home(&b);
        else if (turn < 56)
            harm_bound(&b);
        else if (turn < 68)
            harm_gap(&b);
        else if (turn < 74)
            harm_edge(&b);
        else if (turn < 80)
            harm_overlap(&b);
        else if (turn < 90)
            harm_copy(&b);
        else
            make_not_sound(&b);
    }
    give(&b, bench_same(&b, from) ? NULL : from);
}

/* An image reached goes out as it is, damaged, or both. */
static void offer(const struct bench *b)
{
    if (random_chance(70))
        give(b, NULL);
    if (random_chance(65))
        give_damaged(b);
    if (random_chance(4))
        give_geometry(b);
}

static enum call_kind choose_open(void)
{
    uint32_t turn = random_below(100);
    if (turn < 62)
        return CALL_WRITE;
    if (turn < 74)
        return CALL_DELETE;
    return turn < 88 ? CALL_COMMIT : turn < 95 ? CALL_ABORT : CALL_MOUNT;
}

/* A call that the image does not refuse, for the most part. */
static void choose_call(const struct bench *b, struct call *c)
{
    struct store s;
    enum group g = judge(&b->flash, &s);
    random_call(c, b->flash.units);
    c->kind = g != GROUP_SETTLED ? CALL_MOUNT : s.open.count == 1 ? choose_open() : CALL_BEGIN;
    c->file = (first_file + random_below(files)) % (MAX_FILE + 1);
    while (s.all_pending > 0 && s.pending[c->file].count == 0 && random_chance(98))
        c->file = (c->file + 1) % (MAX_FILE + 1);
    if (c->kind == CALL_WRITE)
        random_content(c);
}

static bool is_sealed_move(const struct bench *b)
{
    enum group g = bench_group(b);
    return g == GROUP_MOVING_HOME_RETIRED || g == GROUP_MOVING_COPY_LIVE;
}

/* Every stop of one call: the rare images among them, and some of the others. */
static void offer_stops(const struct bench *from, const struct call *c, uint32_t steps)
{
    static struct bench b;
    for (uint32_t k = 1; k < steps; k++) {
        bench_copy(&b, from);
        call_make(b.flash, c, k);
        if (random_below(steps) < 6 || is_sealed_move(&b))
            offer(&b);
    }
}

static uint32_t random_stop(uint32_t steps)
{
    uint32_t few = steps < 3 ? steps : 3;
    switch (random_below(4)) {
    case 0: return random_below(few + 1);
    case 1: return steps - random_below(few + 1);
    case 2: return steps - 1;
    default: return random_below(steps + 1);
    }
}

/* Makes one call, whole or stopped, and goes on from there. */
static void advance(struct bench *b)
{
    static struct bench whole;
    static struct call c;
    choose_call(b, &c);
    bench_copy(&whole, b);
    struct answer a = call_make(whole.flash, &c, PLENTY);
    if (a.number != DONE || a.steps == 0)
        return;
    if (random_chance(a.steps > 24 ? 8 : 3))
        offer_stops(b, &c, a.steps);
    if (random_chance(50))
        bench_copy(b, &whole);
    else
        call_make(b->flash, &c, random_stop(a.steps));
    offer(b);
}

/* Units full of the smallest sectors in no order, and what becomes of them where some are put beside or into others. */
static void offer_crowded(struct bench *b, uint32_t unit_size, uint32_t units)
{
    static struct bench harmed;
    compose_crowded(b, unit_size, units);
    for (uint32_t i = 0; i < 4; i++) {
        bench_copy(&harmed, b);
        harm_overlap(&harmed);
        give(&harmed, bench_same(&harmed, b) ? NULL : b);
    }
}

/* A freshly formatted image, or a composed one, which may be unfinished. */
static void start(struct bench *b, uint32_t unit_size, uint32_t units)
{
    if (random_chance(8)) {
        offer_crowded(b, unit_size, units);
    } else if (random_chance(40)) {
        bench_formatted(b, unit_size, units);
    } else {
        compose(b, unit_size, units);
        if (random_chance(50)) {
            offer(b);
            compose_unfinished(b);
        }
    }
    offer(b);
}

static void history(void)
{
    static struct bench b;
    uint32_t unit_size = random_unit_size();
    uint32_t units = random_units(unit_size, 65, 70); /* mostly few: the files of records stay small */
    bool brief = random_chance(75) || unit_size * units > MAX_IMAGE / 4;
    uint32_t length = brief ? random_below(9) : random_between(8, 200);
    first_file = random_below(MAX_FILE + 1);
    files = random_chance(70) ? random_between(1, 8) : random_between(1, MAX_FILE + 1);
    start(&b, unit_size, units);
    for (uint32_t i = 0; i < length && tally_images() < wanted; i++)
        advance(&b);
}

int main(int argc, char **argv)
{
    wanted = asked_count(argc, argv, 3, "peer-images COUNT SEED FILE");
    out = record_open(argv[3]);
    while (tally_images() < wanted)
        history();
    record_close(out);
    tally_print(stderr);
    return fflush(stdout) == 0 ? EXIT_SUCCESS : 2;
}
