#include "chip.h"

#include <errno.h>
#include <fcntl.h>
#include <inttypes.h>
#include <stdio.h>
#include <stdlib.h>
#include <string.h>
#include <unistd.h>

#include "depot.h"
#include "draft.h"
#include "roll.h"
#include "steps.h"

static struct {
    const char *path;
    int file;
    struct flash flash;
    uint32_t left; /* steps until the power is cut */
    uint32_t made;
} chip;

static void fail(const char *what)
{
    fprintf(stderr, "terminal: %s: %s\n", chip.path, what);
    exit(2);
}

static void write_out(size_t at, size_t length)
{
    if (pwrite(chip.file, chip.flash.bytes + at, length, (off_t)at) != (ssize_t)length)
        fail("a step could not be written");
}

/* Makes a call so that the file has each step of it before the next one is made. The store works on an image in memory that the
 * caller keeps, and a call comes back when it is done or its allowance is used up: so the call is made on copies, with the
 * allowances 1, 2, 3 and so on, and what each step more has changed is written out. */
static us_report call(const struct call *c)
{
    static struct flash before, after;
    struct step s;
    us_report r;
    bool goes_on;
    flash_copy(&before, &chip.flash);
    for (uint32_t made = 1;; made++) {
        if (chip.left == 0 && step_reach(&before, c, made - 1, &after, &r)) {
            printf("the power is cut after %" PRIu32 " steps, %s '%s'\n", chip.made, made == 1 ? "before" : "in", c->title);
            exit(0);
        }
        goes_on = step_reach(&before, c, made, &after, &r);
        if (step_between(&chip.flash, &after, &s)) {
            memcpy(chip.flash.bytes + s.at, after.bytes + s.at, s.length);
            write_out(s.at, s.length);
            chip.made++;
            chip.left -= chip.left != US_ALL;
        }
        if (!goes_on) {
            memcpy(chip.flash.table, after.table, sizeof after.table);
            return r;
        }
    }
}

/* Plays one transaction's calls; where the store refuses midway it is aborted, and nothing is changed. */
static int play(const struct history *h, const char *done)
{
    struct call abort_it = { .verb = ABORT, .title = "abort" };
    for (size_t i = 0; i < h->count; i++) {
        uint32_t number = call(&h->call[i]).number;
        if (number == h->call[i].due)
            continue;
        printf("refused, '%s': %s; nothing is changed\n", h->call[i].title, number_in_words(number));
        if (h->call[i].verb != BEGIN)
            call(&abort_it);
        return 1;
    }
    printf("%s (%" PRIu32 " steps)\n", done, chip.made);
    return 0;
}

static void format(uint32_t size, uint32_t units)
{
    struct call format = { .verb = FORMAT, .title = "format" };
    chip.file = open(chip.path, O_RDWR | O_CREAT, 0666);
    if (chip.file < 0)
        fail(strerror(errno));
    off_t length = lseek(chip.file, 0, SEEK_END);
    flash_new(&chip.flash, size, units, 0xFF);
    if (length == 0)
        write_out(0, chip.flash.length);
    else if (length != (off_t)chip.flash.length || pread(chip.file, chip.flash.bytes, chip.flash.length, 0) != (ssize_t)length)
        fail("a file of another length stands there; --size and --units say how many units, of how many bytes");
    call(&format);
    printf("formatted: %" PRIu32 " units of %" PRIu32 " bytes, no list (%" PRIu32 " steps)\n", units, size, chip.made);
}

/* The depot's story after its format. */
static int story(void)
{
    static struct history all;
    depot_story(&all, USUAL_NIGHTS);
    all.count--;
    memmove(all.call, all.call + 1, all.count * sizeof all.call[0]);
    return play(&all, "the story is played to the last night");
}

static void load(uint32_t size)
{
    chip.file = open(chip.path, O_RDWR);
    if (chip.file < 0)
        fail(strerror(errno));
    off_t length = lseek(chip.file, 0, SEEK_END);
    if (length < 0 || length > LARGEST_IMAGE || length % size != 0 || !geometry_is_good(size, (uint32_t)(length / size)))
        fail("its length is not 3 to 64 units of the size that --size says (512 where it says nothing), 65,536 bytes at most");
    flash_new(&chip.flash, size, (uint32_t)(length / size), 0xFF);
    if (pread(chip.file, chip.flash.bytes, chip.flash.length, 0) != (ssize_t)length)
        fail("it could not be read");
}

/* Every start mounts. */
static void start(uint32_t size)
{
    struct call mount = { .verb = MOUNT, .title = "mount" };
    load(size);
    uint32_t number = call(&mount).number;
    if (number != US_DONE)
        fail("no store stands in it: format it first");
    if (chip.made > 0)
        printf("mounted: what a power cut left is mended (%" PRIu32 " steps)\n", chip.made);
}

static const char *name_of(const struct held *held, uint32_t person)
{
    for (uint32_t i = 0; i < held->staff.people; i++)
        if (held->staff.number[i] == person)
            return held->staff.name[i];
    return "no longer on the list";
}

static int list(const struct held *held)
{
    static const char *const other[] = { "door's hours", "notice" };
    printf("the store holds: %s\n", held->text);
    for (uint32_t i = 0; i < held->staff.people; i++)
        printf("  on the list: %" PRIu32 ", %s\n", held->staff.number[i], held->staff.name[i]);
    for (uint32_t i = 0; i < held->passes; i++)
        printf("  pass %" PRIu32 ": %" PRIu32 " (%s) and %" PRIu32 " (%s)\n", i, held->holder[i][0], name_of(held, held->holder[i][0]),
               held->holder[i][1], name_of(held, held->holder[i][1]));
    for (uint32_t i = 0; i < 2; i++) {
        size_t length;
        const uint8_t *content = flash_read(&chip.flash, DOOR + i, &length);
        if (content != NULL)
            printf("  %s: %zu bytes\n", other[i], length);
    }
    return held->is_whole ? 0 : 1;
}

/* Whether all calls would be DONE: they are made on a copy. */
static bool would_be_done(const struct history *h, const char **refused, uint32_t *number)
{
    static struct flash copy;
    flash_copy(&copy, &chip.flash);
    for (size_t i = 0; i < h->count; i++) {
        *refused = h->call[i].title;
        *number = flash_call(&copy, &h->call[i], US_ALL).number;
        if (*number != US_DONE)
            return false;
    }
    return true;
}

static int take(const struct held *held, const char *night, const char *zone, const char *path)
{
    static struct history h;
    static struct staff s;
    const char *refused;
    uint32_t number;
    if (!roll_number(night, LARGEST_NIGHT, &s.night) || !roll_number(zone, LARGEST_NIGHT, &s.zone)) {
        fprintf(stderr, "terminal: a night and a zone are numbers from 0 to %d, without leading zeros\n", LARGEST_NIGHT);
        return 2;
    }
    if (!roll_read(path, &s))
        return 2;
    depot_take(&h, &s, held->parts);
    if (!would_be_done(&h, &refused, &number)) {
        printf("the list is not taken, and the one before still holds: '%s' would be refused, %s\n", refused, number_in_words(number));
        return 1;
    }
    return play(&h, "the list is taken");
}

/* Passes take the room of the next list: says so as soon as one like tonight's would no longer fit. */
static void warn_of_room(const struct held *held)
{
    static struct history h;
    const char *refused;
    uint32_t number;
    depot_take(&h, &held->staff, held->parts);
    if (!would_be_done(&h, &refused, &number))
        puts("careful: a next list like this one has no room any more");
}

static const char *why_no_pass(uint32_t number)
{
    switch (number) {
    case US_NO_LIST: return "there is no list";
    case US_NOT_ON_LIST: return "one of the two is not on the list";
    case US_SAME_PERSON: return "it needs two people";
    case US_REGISTER_FULL: return "all 126 passes are given";
    case US_NO_ROOM: return "the store is full, and its files are as before";
    default: return "the store refuses it";
    }
}

static int pass(const struct held *held, const char *first, const char *second)
{
    static struct history h;
    uint32_t who[2];
    if (!roll_number(first, UINT32_MAX, &who[0]) || !roll_number(second, UINT32_MAX, &who[1])) {
        fprintf(stderr, "terminal: a person is a number of the list, from 1 to %d, without leading zeros\n", LARGEST_PERSON);
        return 2;
    }
    us_report r = call(depot_pass(&h, who[0], who[1]));
    if (r.number != US_DONE) {
        printf("no pass: %s (%s)\n", why_no_pass(r.number), number_in_words(r.number));
        return 1;
    }
    printf("pass %zu is given to %" PRIu32 " (%s) and %" PRIu32 " (%s) (%" PRIu32 " steps)\n", r.file - PASS, who[0], name_of(held, who[0]),
           who[1], name_of(held, who[1]), r.steps);
    warn_of_room(held);
    return 0;
}

/* A look at the image as it stands: a mount would drop the draft. */
static int draft(uint32_t size)
{
    load(size);
    switch (draft_show(&chip.flash)) {
    case US_DONE: puts("it holds once it is committed; a start drops it"); return 0;
    case US_NO_TRANSACTION: puts("no draft is open"); return 0;
    case US_UNSETTLED: puts("no draft can be shown: the power was cut within a call, and a start mends that and drops the draft"); return 1;
    default: fail("no store stands in it: format it first"); return 2;
    }
}

static int command(uint32_t size, uint32_t units, char *const *words, int count)
{
    static struct held held;
    if (strcmp(words[0], "format") == 0 || strcmp(words[0], "story") == 0) {
        format(size, units);
        return strcmp(words[0], "story") == 0 ? story() : 0;
    }
    if (strcmp(words[0], "draft") == 0)
        return draft(size);
    start(size);
    depot_look(&chip.flash, &held, MOST_PASSES);
    if (count == 1)
        return list(&held);
    if (!held.is_whole)
        fail("what it holds is not what this terminal writes (the command list shows it); format it first");
    return count == 4 ? take(&held, words[1], words[2], words[3]) : pass(&held, words[1], words[2]);
}

int chip_command(const char *path, uint32_t size, uint32_t units, uint32_t steps, char *const *words, int count)
{
    chip.path = path;
    chip.left = steps;
    int status = command(size, units, words, count);
    if (steps != US_ALL)
        printf("the power was not cut: there were %" PRIu32 " steps\n", chip.made);
    return status;
}
