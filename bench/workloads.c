/* workloads: what the papers' workloads cost, one line of key=value for each run. SIDE is the side that makes the calls.
   workloads capacity SIZE UNITS LENGTH                       equal files until NO ROOM: one a transaction, and all in one
   workloads mix SIZE UNITS PERCENT LENGTH UPDATES SEED       20 % of the files take 90 % of the updates; LENGTH 0 is any length each time
   workloads lengths SIZE UNITS RUNS                          files of 0 to 256 bytes until NO ROOM, in so many runs
   workloads wear SIZE UNITS LENGTH ERASES                    one file rewritten until a unit was erased so often
   With `lowest` before them a sector goes into the lowest unit that fits, the old rule, and else into the one with the smallest gap. */
#include <inttypes.h>
#include <stdio.h>
#include <stdlib.h>
#include <string.h>

#include "../peer/checks/random.h"
#include "sides.h"

#ifndef SIDE
#define SIDE store_side
#endif

enum { MOST_UNITS = 64 };

static const struct side *const side = &SIDE;
static struct image image;
static bool lowest; /* the old rule */

static struct {
    uint64_t updates, user, steps, erases, refused;
    uint32_t by_unit[MOST_UNITS];
    uint32_t most; /* of one unit */
} spent;

/* The unit that was last seen without a logical number. */
static uint32_t spare;

/* Counts a call's steps and its erase, if it made one; the number that it answered. */
static uint32_t made(us_report r)
{
    uint32_t spare_before = spare;
    spare = image_spare(&image);
    spent.steps += r.steps;
    if (spare != spare_before) {
        spent.erases++;
        if (++spent.by_unit[spare] > spent.most)
            spent.most = spent.by_unit[spare];
    }
    return r.number;
}

static void expect(uint32_t number, const char *what)
{
    if (number == US_DONE)
        return;
    fprintf(stderr, "workloads: %s answered %" PRIu32 "\n", what, number);
    exit(2);
}

static us_report begin(void)
{
    return (lowest ? side->begin_lowest : side->begin)(IMAGE(&image), US_ALL);
}

static const char *rule(void)
{
    return lowest ? "lowest" : "tightest";
}

/* Any content of that length; the number that the write answered. */
static uint32_t write_file(uint32_t file, uint32_t length)
{
    uint8_t content[LONGEST];
    for (uint32_t i = 0; i < length; i++)
        content[i] = (uint8_t)random_below(256);
    return made((lowest ? side->write_lowest : side->write)(IMAGE(&image), file, content, length, US_ALL));
}

/* One transaction with one write; false where there was no room, the store then being as it was. */
static bool update(uint32_t file, uint32_t length)
{
    uint32_t number = made(begin());
    if (number == US_NO_ROOM)
        return false;
    expect(number, "begin");
    number = write_file(file, length);
    if (number == US_NO_ROOM) {
        expect(made(side->abort(IMAGE(&image), US_ALL)), "abort");
        return false;
    }
    expect(number, "write");
    expect(made(side->commit(IMAGE(&image), US_ALL)), "commit");
    spent.updates++;
    spent.user += length;
    return true;
}

/* 0 stands for any length. */
static uint32_t next_length(uint32_t length)
{
    return length == 0 ? random_below(LONGEST + 1) : length;
}

/* A formatted image with files 0, 1, .. of that length, at most so many; how many there was room for. */
static uint32_t fill(uint32_t size, uint32_t units, uint32_t length, uint32_t at_most)
{
    uint32_t file = 0;
    image_erase(&image, size, units);
    expect(side->format(IMAGE(&image), US_ALL).number, "format");
    spare = image_spare(&image);
    while (file < at_most && update(file, next_length(length)))
        file++;
    return file;
}

static void count_afresh(void)
{
    memset(&spent, 0, sizeof spent);
}

static void print_spent(void)
{
    uint64_t programmed = (spent.steps - spent.erases) * 2;
    uint64_t erased = spent.erases * image.size;
    uint64_t all = (uint64_t)image.size * image.units;
    printf(" updates=%" PRIu64 " user=%" PRIu64 " steps=%" PRIu64 " programmed=%" PRIu64 " erases=%" PRIu64 " erased=%" PRIu64
           " most=%" PRIu32 " refused=%" PRIu64,
           spent.updates, spent.user, spent.steps, programmed, spent.erases, erased, spent.most, spent.refused);
    printf(" steps/byte=%.3f programmed/byte=%.3f erased/byte=%.3f", (double)spent.steps / (double)spent.user,
           (double)programmed / (double)spent.user, (double)erased / (double)spent.user);
    printf(" even=%.3f endurance=%.3f\n", (double)spent.erases / image.units / spent.most, (double)spent.user / (double)(all * spent.most));
}

/* As many equal files as there is room for in one transaction. */
static uint32_t fill_at_once(uint32_t size, uint32_t units, uint32_t length)
{
    uint32_t file = 0;
    fill(size, units, 0, 0);
    expect(made(begin()), "begin");
    while (file < FILES && write_file(file, length) == US_DONE)
        file++;
    expect(made(side->commit(IMAGE(&image), US_ALL)), "commit");
    return file;
}

static double percent(uint32_t files, uint32_t length)
{
    return 100.0 * files * length / (double)image.length;
}

static void capacity(const uint32_t *n)
{
    uint32_t files = fill(n[0], n[1], n[2], FILES);
    uint32_t at_once = fill_at_once(n[0], n[1], n[2]);
    printf("capacity rule=%s size=%" PRIu32 " units=%" PRIu32 " length=%" PRIu32 " files=%" PRIu32 " percent=%.1f at-once=%" PRIu32
           " at-once-percent=%.1f numbers=%s\n",
           rule(), n[0], n[1], n[2], files, percent(files, n[2]), at_once, percent(at_once, n[2]),
           files == FILES || at_once == FILES ? "used-up" : "left");
}

/* Files of any length, one a transaction, until the first that there is no room for; the mean of the runs. */
static void lengths(const uint32_t *n)
{
    uint64_t files = 0, bytes = 0;
    count_afresh();
    for (uint32_t run = 0; run < n[2]; run++) {
        uint32_t file = 0, length = 0;
        fill(n[0], n[1], 0, 0);
        random_seed(run);
        while (file < FILES && update(file, length = next_length(0))) {
            bytes += length;
            file++;
        }
        files += file;
    }
    printf("lengths rule=%s size=%" PRIu32 " units=%" PRIu32 " runs=%" PRIu32 " files=%.2f percent=%.2f erases=%.2f\n", rule(), n[0], n[1],
           n[2], (double)files / n[2], 100.0 * (double)bytes / n[2] / (double)image.length, (double)spent.erases / n[2]);
}

static void mix(const uint32_t *n)
{
    random_seed(n[5]);
    uint32_t room = fill(n[0], n[1], n[3], FILES);
    uint32_t files = room * n[2] / 100;
    uint32_t hot = files / 5;
    if (fill(n[0], n[1], n[3], files) != files || hot == 0)
        expect(US_NO_ROOM, "the filling");
    count_afresh();
    for (uint32_t i = 0; i < n[4]; i++) {
        uint32_t file = random_below(10) > 0 ? random_below(hot) : random_between(hot, files - 1);
        spent.refused += !update(file, next_length(n[3]));
    }
    printf("mix rule=%s size=%" PRIu32 " units=%" PRIu32 " percent=%" PRIu32 " length=%" PRIu32 " room=%" PRIu32 " files=%" PRIu32, rule(),
           n[0], n[1], n[2], n[3], room, files);
    print_spent();
}

static void wear(const uint32_t *n)
{
    fill(n[0], n[1], n[2], 1);
    while (spent.most < n[3])
        if (!update(0, n[2]))
            expect(US_NO_ROOM, "the update");
    uint32_t worn = 0;
    for (uint32_t u = 0; u < n[1]; u++)
        worn += spent.by_unit[u] > n[3] / 2;
    printf("wear rule=%s size=%" PRIu32 " units=%" PRIu32 " length=%" PRIu32 " limit=%" PRIu32 " worn=%" PRIu32, rule(), n[0], n[1], n[2],
           n[3], worn);
    print_spent();
}

static bool numbers(char **words, int count, uint32_t *n)
{
    for (int i = 0; i < count; i++) {
        char *end;
        n[i] = (uint32_t)strtoul(words[i], &end, 10);
        if (*words[i] == '\0' || *end != '\0')
            return false;
    }
    return true;
}

int main(int argc, char **argv)
{
    static const struct {
        const char *name;
        int numbers;
        void (*run)(const uint32_t *);
    } workloads[] = {
        { "capacity", 3, capacity },
        { "lengths", 3, lengths },
        { "mix", 6, mix },
        { "wear", 4, wear },
    };
    uint32_t n[6];
    lowest = argc > 1 && strcmp(argv[1], "lowest") == 0;
    argc -= lowest;
    argv += lowest;
    for (size_t i = 0; argc > 1 && i < sizeof workloads / sizeof workloads[0]; i++) {
        if (strcmp(argv[1], workloads[i].name) != 0 || argc != workloads[i].numbers + 2)
            continue;
        if (!numbers(argv + 2, workloads[i].numbers, n) || (n[2] > LONGEST && workloads[i].run != lengths))
            break;
        workloads[i].run(n);
        return EXIT_SUCCESS;
    }
    fputs(
        "usage: workloads [lowest] capacity SIZE UNITS LENGTH, lengths SIZE UNITS RUNS, mix SIZE UNITS PERCENT LENGTH UPDATES SEED, or "
        "wear SIZE UNITS LENGTH ERASES\n",
        stderr);
    return 2;
}
