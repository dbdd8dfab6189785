#include "emit.h"

#include <inttypes.h>
#include <string.h>

#include "../store/lists.h"
#include "rows.h"

struct bench scene;

static struct bench kept;
static bool scene_damaged, kept_damaged;

static struct {
    uint64_t calls, stopped, unstarted, damaged, reclaims, reclaimed, lists, judges, wrong;
    uint64_t number[NUMBERS], kind[CALL_KINDS], left[GROUPS], size[4], units[4], written[5];
    uint64_t from[2][3];     /* DONE and ABSENT, by what they say */
    uint64_t rule[2], apart; /* stores by rule; those that the other rule places elsewhere */
} tally;

/* A length over the largest image is only a number: no call looks at such an image. */
static void copy_scene(struct bench *to, const struct bench *from)
{
    size_t length = from->flash.length < MAX_IMAGE ? from->flash.length : MAX_IMAGE;
    to->flash = from->flash;
    to->flash.image = to->image;
    memcpy(to->image, from->image, length);
}

void emit_new(uint32_t unit_size, uint32_t units)
{
    uint64_t whole = (uint64_t)unit_size * units;
    printf("new %" PRIu32 " %" PRIu32 "\n", unit_size, units);
    memset(scene.image, 0xFF, sizeof scene.image);
    scene.flash = (struct flash){ scene.image, whole <= MAX_IMAGE ? (size_t)whole : 0, unit_size, units };
    scene_damaged = false;
}

void emit_size(uint32_t length)
{
    printf("size %" PRIu32 "\n", length);
    if (length > scene.flash.length && scene.flash.length < MAX_IMAGE)
        memset(scene.image + scene.flash.length, 0xFF, MAX_IMAGE - scene.flash.length);
    scene.flash.length = length;
}

void emit_keep(void)
{
    puts("keep");
    copy_scene(&kept, &scene);
    kept_damaged = scene_damaged;
}

void emit_back(void)
{
    puts("back");
    copy_scene(&scene, &kept);
    scene_damaged = kept_damaged;
}

void emit_judge(void)
{
    puts("judge");
    tally.judges++;
}

void emit_list(void)
{
    puts("list");
    tally.lists++;
}

void emit_wrong(const char *line)
{
    puts(line);
    tally.wrong++;
}

void emit_image(const struct bench *image, bool damage)
{
    for (uint32_t i = 0; i < image->flash.length; i++) {
        if (scene.image[i] == image->image[i])
            continue;
        printf("put %" PRIu32 " %d\n", i, image->image[i]);
        scene.image[i] = image->image[i];
        scene_damaged = scene_damaged || damage;
    }
}

/* The old home that the call moves to the spare; the number of units where it moves none. */
static uint32_t moved_unit(const struct call *c)
{
    struct store s;
    const struct flash *f = &scene.flash;
    uint32_t refusal = store_decode(f, &s);
    if (refusal == UNSETTLED && c->kind == CALL_MOUNT && s.move.is)
        return s.move.old_home;
    bool stores = c->kind == CALL_BEGIN || c->kind == CALL_WRITE || c->kind == CALL_DELETE;
    if (refusal != DONE || !stores || c->length > MAX_CONTENT)
        return f->units;
    struct place place = place_find(f, &s, c->rule, c->kind == CALL_WRITE ? even_size(c->length) : 0);
    return place.is && place.reclaims ? s.home[place.at.unit].unit : f->units;
}

static bool call_erases(const struct call *c, uint32_t allowance, uint32_t unit)
{
    static struct bench trial;
    copy_scene(&trial, &scene);
    call_make(trial.flash, c, allowance);
    return flash_unit_erased(&trial.flash, unit);
}

struct plan plan_call(const struct call *c)
{
    static struct bench whole;
    uint32_t unit = moved_unit(c);
    copy_scene(&whole, &scene);
    struct answer a = call_make(whole.flash, c, UINT32_MAX);
    struct plan p = { a.number, a.steps, 0 };
    if (a.number != DONE || unit >= scene.flash.units)
        return p;
    uint32_t low = 0;
    p.erase = a.steps;
    while (low + 1 < p.erase) {
        uint32_t middle = low + (p.erase - low) / 2;
        if (call_erases(c, middle, unit))
            p.erase = middle;
        else
            low = middle;
    }
    return p;
}

/* A store, counted by its rule, and whether the other rule takes another unit for it. */
static void count_rule(const struct call *c)
{
    struct store s;
    const struct flash *f = &scene.flash;
    bool stores = c->kind == CALL_BEGIN || c->kind == CALL_WRITE || c->kind == CALL_DELETE;
    if (!stores || c->length > MAX_CONTENT || store_decode(f, &s) != DONE)
        return;
    uint32_t size = c->kind == CALL_WRITE ? even_size(c->length) : 0;
    tally.rule[c->rule]++;
    tally.apart += place_find(f, &s, TIGHTEST, size).at.unit != place_find(f, &s, LOWEST, size).at.unit;
}

static void count_shape(const struct call *c)
{
    const struct flash *f = &scene.flash;
    if (c->kind == CALL_WRITE)
        tally.written[c->length == 0 ? 0 : c->length < 256 ? 1 : c->length < 258 ? c->length - 254 : 4]++;
    if (!flash_geometry_ok(f))
        return;
    for (uint32_t i = 0; i < 4; i++)
        tally.size[i] += f->unit_size == UINT32_C(512) << i;
    tally.units[f->units == 3 ? 0 : f->units < 9 ? 1 : f->units < 33 ? 2 : 3]++;
}

struct answer emit_call(const struct call *c, uint32_t allowance)
{
    struct store s;
    uint32_t unit = c->kind == CALL_MOUNT ? scene.flash.units : moved_unit(c);
    call_print(c, allowance);
    count_rule(c);
    struct answer a = call_make(scene.flash, c, allowance);
    bool reclaims = unit < scene.flash.units && a.number <= STOPPED && a.steps > 0;
    count_shape(c);
    tally.calls++;
    tally.kind[c->kind]++;
    tally.number[a.number]++;
    if (a.number == DONE || a.number == ABSENT)
        tally.from[a.number == ABSENT][a.from]++;
    tally.stopped += a.number == STOPPED;
    tally.unstarted += a.number == STOPPED && a.steps == 0;
    tally.damaged += scene_damaged;
    tally.reclaims += reclaims;
    tally.reclaimed += reclaims && flash_unit_erased(&scene.flash, unit);
    if (a.number == STOPPED)
        tally.left[judge(&scene.flash, &s)]++;
    if (c->kind == CALL_FORMAT && a.number == DONE)
        scene_damaged = false;
    return a;
}

uint64_t emitted_calls(void)
{
    return tally.calls;
}

void emit_print_counts(FILE *out)
{
    static const char *const kinds[] = { "format", "mount", "begin", "write", "delete", "commit", "abort", "read", "readtx", "readat" };
    static const char *const written[] = { "0", "1-255", "256", "257", "over" };
    fprintf(out,
            "calls all=%" PRIu64 " stopped=%" PRIu64 " stopped-before-a-step=%" PRIu64 " damaged=%" PRIu64 " reclaims=%" PRIu64
            " reclaimed=%" PRIu64 "\n",
            tally.calls, tally.stopped, tally.unstarted, tally.damaged, tally.reclaims, tally.reclaimed);
    print_numbered(out, "numbers", tally.number, NUMBERS);
    print_numbered(out, "done-from", tally.from[0], 3);
    print_numbered(out, "absent-from", tally.from[1], 3);
    print_row(out, "kinds", kinds, tally.kind, CALL_KINDS);
    static const char *const rules[] = { "tightest", "lowest" };
    print_row(out, "stores-by-rule", rules, tally.rule, 2);
    fprintf(out, "stores-apart the-rules-differ=%" PRIu64 "\n", tally.apart);
    print_row(out, "left-by-stops", group_name, tally.left, GROUPS);
    print_row(out, "unit-sizes", size_name, tally.size, 4);
    print_row(out, "units", units_name, tally.units, 4);
    print_row(out, "written-lengths", written, tally.written, 5);
    fprintf(out, "beside judges=%" PRIu64 " lists=%" PRIu64 " wrong-lines=%" PRIu64 "\n", tally.judges, tally.lists, tally.wrong);
}
