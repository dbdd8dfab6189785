/* peer-tables COUNT SEED: a random script of about COUNT calls through a table, on standard output, and what is in it on standard error.
   What is claimed of each call is checked on the way: a violation ends it with status 1. */
#include "../checks/calls.h"
#include "../checks/random.h"
#include "asked.h"
#include "compose.h"
#include "table_trips.h"

/* An empty store through the table or without it, or a settled image that was put together; the table filled, or not yet. */
static void start(void)
{
    static const struct call format = { .kind = CALL_FORMAT };
    static struct bench b;
    if (random_chance(20))
        read_some(2);
    if (random_chance(15)) {
        compose(&b, scene.flash.unit_size, scene.flash.units);
        if (random_chance(20))
            compose_unfinished(&b);
        image_become(&b);
        through_fill();
        return;
    }
    while (random_chance(20))
        through(&format, random_below(8));
    if (random_chance(85)) {
        through(&format, PLENTY);
        return;
    }
    image_call(&format, PLENTY);
    if (random_chance(70))
        through_fill();
}

static void advance(void)
{
    static struct call c;
    uint32_t turn = random_below(1000);
    if (turn < 20) {
        choose_call(&c);
        trip_table_stops(&c);
    } else if (turn < 60) {
        trip_table_damage();
    } else if (turn < 75) {
        trip_table_length();
    } else if (turn < 95) {
        trip_apart();
    } else if (turn < 115) {
        trip_image();
    } else if (turn < 119) {
        trip_table_wrong_lines();
    } else if (turn < 140) {
        step_on(false);
        read_some(2);
        if (random_chance(80))
            through_fill();
    } else if (turn < 200) {
        random_through();
    } else if (turn < 450) {
        read_some(3);
    } else if (turn < 455) {
        table_look();
    } else {
        step_on(true);
    }
}

/* Uses nothing of what was played before its `new`. */
static void history(uint64_t wanted)
{
    static const uint32_t sizes[] = { 512, 512, 512, 512, 512, 1024, 1024, 2048, 4096 };
    uint32_t unit_size = sizes[random_below(9)];
    uint32_t units = random_units(unit_size, 60, 90);
    uint32_t length = unit_size * units > MAX_IMAGE / 4 ? random_between(5, 40) : random_between(30, 250);
    choose_habit();
    start_pair(unit_size, units);
    start();
    for (uint32_t i = 0; i < length && emitted_through() < wanted; i++)
        advance();
    if (random_chance(20))
        emit_list();
}

static void print_counts(FILE *out)
{
    emit_print_counts(out);
    table_print_counts(out);
}

int main(int argc, char **argv)
{
    static const struct generator tables = { "peer-tables COUNT SEED", history, emitted_through, print_counts };
    return asked_script(argc, argv, &tables);
}
