/* peer-scripts COUNT SEED: a random script of about COUNT calls on standard output, and what is in it on standard error. */
#include "../checks/calls.h"
#include "../checks/random.h"
#include "asked.h"
#include "compose.h"
#include "pass_emit.h"
#include "trips.h"

/* What a history uses: few files, so that they are rewritten, and lengths that fill units in different ways. */
static struct {
    uint32_t first_file, files, style, length[2];
    uint32_t rule; /* a rule, or 2: each call its own */
} habit;

static uint32_t random_unit_size(void)
{
    static const uint32_t sizes[] = { 512, 512, 512, 512, 512, 512, 512, 1024, 1024, 1024, 2048, 4096 };
    return sizes[random_below(12)];
}

static void choose_habit(void)
{
    habit.first_file = random_below(MAX_FILE + 1);
    habit.files = random_chance(80) ? random_between(1, 8) : random_between(1, MAX_FILE + 1);
    habit.style = random_below(6);
    habit.rule = random_below(3);
    for (uint32_t i = 0; i < 2; i++)
        habit.length[i] = random_chance(20) ? MAX_CONTENT : random_below(MAX_CONTENT + 1);
}

/* Contents that would be a current file's descriptors, if they were read as such. */
static void imitate_descriptors(struct call *c)
{
    const uint8_t words[] = { 0xF8, 0xFF, 0xF0, 0x01, 0x02, 0x00, (uint8_t)random_below(256), 0x10 };
    for (uint32_t i = 0; i < c->length; i++)
        c->content[i] = words[i % 8];
}

static void habit_content(struct call *c)
{
    switch (habit.style) {
    case 0: random_content(c); break;
    case 1: random_content_of(c, habit.length[0]); break;
    case 2: random_content_of(c, habit.length[random_below(2)]); break;
    case 3: random_content_of(c, random_chance(70) ? 0 : random_below(24)); break;
    default: random_content_of(c, random_below(MAX_CONTENT + 2)); break;
    }
    if (random_chance(10))
        imitate_descriptors(c);
}

static enum call_kind choose_open(void)
{
    uint32_t turn = random_below(100);
    if (turn < 70)
        return CALL_WRITE;
    if (turn < 78)
        return CALL_DELETE;
    return turn < 92 ? CALL_COMMIT : turn < 96 ? CALL_ABORT : CALL_MOUNT;
}

/* The call that takes the history on, for the most part one that the image does not refuse. */
static void choose_call(struct call *c)
{
    struct store s;
    uint32_t first = store_decode(&scene.flash, &s);
    random_call(c, scene.flash.units);
    c->length = 0;
    if (first == UNSETTLED)
        c->kind = CALL_MOUNT;
    else if (first != DONE)
        c->kind = CALL_FORMAT;
    else
        c->kind = s.open.count > 0 ? choose_open() : CALL_BEGIN;
    if (habit.rule < 2)
        c->rule = (enum rule)habit.rule;
    c->file = (habit.first_file + random_below(habit.files)) % (MAX_FILE + 1);
    if (c->kind == CALL_WRITE)
        habit_content(c);
}

/* Looks in the transaction view at a file that was just changed, and at another one; and may delete it once more. */
static void look_back(const struct call *c)
{
    struct call look = { .kind = CALL_READTX, .file = c->file };
    if (c->kind != CALL_WRITE && c->kind != CALL_DELETE)
        return;
    if (random_chance(20))
        emit_call(&look, 0);
    if (random_chance(c->kind == CALL_DELETE ? 20 : 2)) {
        look.kind = CALL_DELETE;
        emit_call(&look, random_chance(50) ? PLENTY : 0);
        look.kind = CALL_READTX;
    }
    look.file = (habit.first_file + random_below(habit.files)) % (MAX_FILE + 1);
    if (random_chance(20))
        emit_call(&look, 0);
}

/* Makes one call, whole or stopped, and goes on from there. */
static void advance(void)
{
    static struct call c;
    choose_call(&c);
    struct plan p = plan_call(&c);
    if (random_chance(p.erase > 0 ? 20 : 2))
        trip_stops(&c);
    emit_call(&c, p.number != DONE ? random_below(300) : random_chance(60) ? PLENTY : random_allowance(&p));
    look_back(&c);
}

/* A line of pass lists, on whatever image there is; `peer-passes` has those that find a list. */
static void try_passes(void)
{
    switch (random_below(4)) {
    case 0: emit_staff(); break;
    case 1: emit_register(); break;
    default: emit_give(random_below(10), random_below(10), random_chance(50) ? PLENTY : random_below(60));
    }
}

static void wander(void)
{
    bool large = scene.flash.length > MAX_IMAGE / 8;
    if (random_chance(35))
        trip_side_calls(random_between(1, 3));
    if (random_chance(9))
        trip_damage();
    if (random_chance(3))
        emit_judge();
    if (random_chance(6))
        try_passes();
    if (random_below(1000) < (large ? 3 : 30))
        emit_list();
    if (random_below(1000) < 8)
        trip_length();
    if (random_below(1000) < 4)
        trip_wrong_lines();
}

/* An image of any bytes, formatted with stops on the way. */
static void start_formatted(void)
{
    static const struct call format = { .kind = CALL_FORMAT };
    static struct bench b;
    bench_copy(&b, &scene);
    for (uint32_t i = 0; random_chance(70) && i < 9; i++)
        b.image[random_below((uint32_t)b.flash.length)] = (uint8_t)random_below(256);
    emit_image(&b, false);
    struct plan p = plan_call(&format);
    while (random_chance(40))
        emit_call(&format, random_below(p.steps + 1));
    emit_call(&format, random_chance(50) ? p.steps : PLENTY);
}

/* A settled image that was put together, or one that is not finished. */
static void start_composed(void)
{
    static struct bench b;
    compose(&b, scene.flash.unit_size, scene.flash.units);
    if (random_chance(50))
        compose_unfinished(&b);
    emit_image(&b, false);
    emit_judge();
}

/* Uses nothing of what was played before its `new`. */
static void history(uint64_t wanted)
{
    uint32_t unit_size = random_unit_size();
    uint32_t units = random_units(unit_size, 45, 50);
    bool brief = random_chance(50) || unit_size * units > MAX_IMAGE / 4;
    uint32_t length = brief ? random_between(4, 40) : random_between(40, 200);
    choose_habit();
    emit_new(unit_size, units);
    if (unit_size * units <= 4096 && random_chance(15))
        start_composed();
    else
        start_formatted();
    for (uint32_t i = 0; i < length && emitted_calls() < wanted; i++) {
        advance();
        wander();
    }
    if (random_chance(30))
        emit_list();
}

static void history_or_geometry(uint64_t wanted)
{
    if (random_chance(25))
        trip_geometry();
    history(wanted);
}

int main(int argc, char **argv)
{
    static const struct generator scripts = { "peer-scripts COUNT SEED", history_or_geometry, emitted_calls, emit_print_counts };
    return asked_script(argc, argv, &scripts);
}
