#include "cuts.h"

#include <inttypes.h>
#include <stdarg.h>
#include <stdio.h>
#include <string.h>
#include <time.h>
#include <unistd.h>

#include "depot.h"
#include "shelf.h"

enum { MOST_COMPLAINTS = 10, PLAYED_ON_IN_SHORT = 16 };

static struct {
    struct history story;
    struct shelves shelves;
    uint32_t steps[MOST_CALLS]; /* of each call, uninterrupted */
    bool reclaims[MOST_CALLS];
    uint32_t all_steps;
    uint32_t most_mount_steps; /* what document 01 allows, over all restarts */
    struct plan plan;
    size_t at; /* the cut that is being tried */
    uint32_t made;
    struct counts counts;
} now;

static void wrong(const char *format, ...)
{
    va_list values;
    if (++now.counts.wrong > MOST_COMPLAINTS)
        return;
    printf("WRONG: '%s' cut after %" PRIu32 " of %" PRIu32 " steps: ", now.story.call[now.at].title, now.made, now.steps[now.at]);
    va_start(values, format);
    vprintf(format, values);
    va_end(values);
    puts(now.counts.wrong == MOST_COMPLAINTS ? "\n(more is wrong; it is only counted)" : "");
}

/* Plays the calls from..to - 1 in full; false, and said, where one is refused. */
static bool play(struct flash *f, size_t from, size_t to)
{
    for (size_t i = from; i < to; i++) {
        us_report r = flash_call(f, &now.story.call[i], US_ALL);
        if (r.number != now.story.call[i].due) {
            wrong("played on, '%s' answers %s", now.story.call[i].title, number_in_words(r.number));
            return false;
        }
    }
    return true;
}

/* An image between two transactions: settled, none open, and exactly the committed files. */
static bool check(const struct flash *f, uint32_t commits)
{
    now.counts.images++;
    const char *words = shelves_compare(&now.shelves, commits, f, true);
    if (words != NULL) {
        wrong("%s", words);
        return false;
    }
    /* Asked whether a transaction is open alone: no content is shown, so there is no `from` to pass on. */
    if (us_read_open(f->bytes, f->length, f->size, f->units, 0).number != US_NO_TRANSACTION) {
        wrong("a transaction is open");
        return false;
    }
    return true;
}

/* The image as the cut left it: reads refuse it, or show what is committed; those through the table say that it is stale, or the same
 * refusal. */
static void check_cut(const struct flash *f, uint32_t commits)
{
    now.counts.images++;
    uint32_t number = us_read(f->bytes, f->length, f->size, f->units, LIST).number;
    uint32_t through = us_table_read(f->bytes, f->length, f->size, f->units, f->table, US_ENTRIES, LIST).number;
    if (number == US_UNSETTLED && through != US_UNSETTLED)
        wrong("before the mount a read through the table answers %s", number_in_words(through));
    if (number == US_UNSETTLED)
        return;
    const char *words = shelves_compare(&now.shelves, commits, f, false);
    if (words != NULL)
        wrong("before the mount %s", words);
}

/* The mount cut at each of its steps and begun again: it ends with the uninterrupted mount's image, or one that is as right. */
static void cut_mount(const struct flash *cut, const struct flash *mounted, uint32_t steps, uint32_t commits)
{
    static struct flash f;
    for (uint32_t made = 0; made < steps; made++) {
        flash_copy(&f, cut);
        us_report first = flash_mount(&f, made);
        us_report second = flash_mount(&f, US_ALL);
        now.counts.mount_cuts++;
        if (first.number != US_STOPPED || first.steps != made || second.number != US_DONE)
            wrong("its mount cut after %" PRIu32 " steps answers %s, and then %s", made, number_in_words(first.number),
                  number_in_words(second.number));
        else if (first.steps + second.steps > now.most_mount_steps)
            wrong("its mount cut after %" PRIu32 " steps takes %" PRIu32 " in all", made, first.steps + second.steps);
        else if (memcmp(f.bytes, mounted->bytes, f.length) == 0)
            now.counts.images++;
        else
            check(&f, commits);
    }
}

/* Whether the cut comes after the call's commit step. */
static bool commit_step_is_made(void)
{
    const struct call *c = &now.story.call[now.at];
    if (c->verb == GIVE && c->due == US_DONE)
        return now.made > now.steps[now.at] - shelves_commit_steps(&now.shelves, now.shelves.commits[now.at]);
    return c->verb == COMMIT && now.made > 0;
}

/* The history played on to its end after the mount: a transaction that was cut is begun again. */
static void play_on(struct flash *f, uint32_t commits, us_report door)
{
    size_t from = now.at;
    if (commits > now.shelves.commits[now.at])
        from = now.at + 1;
    else
        while (!begins_a_transaction(&now.story.call[from]))
            from--;
    for (size_t i = from; i < now.story.count && !now.story.call[i].fills; i++) {
        if (!play(f, i, i + 1))
            return;
        if (ends_a_transaction(&now.story.call[i]) && !check(f, now.shelves.commits[i + 1]))
            return;
    }
    us_report r = us_read_at(f->bytes, f->length, f->size, f->units, door.unit, door.position);
    us_report again = us_read(f->bytes, f->length, f->size, f->units, DOOR);
    if (door.number == US_DONE && (r.number != US_DONE || r.file != DOOR || r.start != again.start || r.length != again.length))
        wrong("the handle of the door's hours, which nobody changed, shows something else at the history's end");
    now.counts.histories += !now.story.call[now.at].fills;
}

/* The terminal starts again after the cut: false where its mount failed, else the text says what the store then holds. */
static bool start_again(struct flash *f, uint32_t commits, char text[256])
{
    static struct flash cut;
    static struct held held;
    flash_copy(&cut, f);
    flash_lose_power(f);
    us_report r = flash_mount(f, US_ALL);
    if (now.story.call[now.at].verb == FORMAT && r.number == US_BAD_IMAGE) {
        now.counts.images++;
        strcpy(text, "no store; it is formatted again");
        return true;
    }
    if (r.number != US_DONE || r.steps > now.most_mount_steps) {
        wrong("the mount answers %s after %" PRIu32 " steps", number_in_words(r.number), r.steps);
        strcpy(text, "NOTHING: THE MOUNT FAILED");
        return false;
    }
    check_cut(&cut, commits);
    check(f, commits);
    if (flash_mount(f, US_ALL).steps != 0)
        wrong("a second mount finds something to do");
    depot_look(f, &held, MOST_STORY_PASSES);
    if (!held.is_whole)
        wrong("the store held %s", held.text);
    strcpy(text, held.text);
    if (!now.plan.is_short)
        cut_mount(&cut, f, r.steps, commits);
    return true;
}

/* One cut: the history from format up to it, the cut, the terminal's start, and the history on to its end. */
static void try_cut(char text[256])
{
    static struct flash f;
    const struct call *c = &now.story.call[now.at];
    now.counts.cuts++;
    flash_new(&f, now.plan.size, now.plan.units, FACTORY_BYTE);
    if (!play(&f, 0, now.at))
        return;
    us_report door = us_read(f.bytes, f.length, f.size, f.units, DOOR);
    us_report r = flash_call(&f, c, now.made);
    if (r.number != US_STOPPED || r.steps != now.made)
        wrong("it answers %s after %" PRIu32 " steps", number_in_words(r.number), r.steps);
    uint32_t commits = now.shelves.commits[now.at] + commit_step_is_made();
    if (start_again(&f, commits, text) && (!now.plan.is_short || now.counts.cuts % PLAYED_ON_IN_SHORT == 0))
        play_on(&f, commits, door);
}

static void show_progress(void)
{
    static time_t last;
    if (time(NULL) == last || !isatty(STDERR_FILENO))
        return;
    last = time(NULL);
    fflush(stdout);
    fprintf(stderr, "%" PRIu32 " of %" PRIu32 " steps cut, %" PRIu32 " images checked ..\r", now.counts.cuts, now.all_steps,
            now.counts.images);
}

static void show_range(uint32_t from, uint32_t to, const char *text)
{
    char range[40];
    if (now.plan.is_brief)
        return;
    if (from == to)
        snprintf(range, sizeof range, "%" PRIu32 " of %" PRIu32, from, now.steps[now.at]);
    else
        snprintf(range, sizeof range, "%" PRIu32 "-%" PRIu32 " of %" PRIu32, from, to, now.steps[now.at]);
    printf("%-36s %-13s  %s\n", from == 0 ? now.story.call[now.at].title : "", range, text);
    if (from == 0 && now.reclaims[now.at])
        puts("  (a unit is reclaimed for it)");
    fflush(stdout);
}

/* All cuts of one call; neighbours after which the store held the same share a line. */
static void cut_call(void)
{
    char text[2][256] = { "", "" };
    uint32_t from = 0;
    for (now.made = 0; now.made < now.steps[now.at]; now.made++) {
        try_cut(text[1]);
        show_progress();
        if (now.made > 0 && strcmp(text[0], text[1]) != 0) {
            show_range(from, now.made - 1, text[0]);
            from = now.made;
        }
        strcpy(text[0], text[1]);
    }
    if (now.made > 0)
        show_range(from, now.made - 1, text[0]);
    else if (!now.plan.is_brief)
        printf("%-36s %-13s  refused: %s\n", now.story.call[now.at].title, "no step", number_in_words(now.story.call[now.at].due));
}

/* The story once, uninterrupted: the steps of each call, and whether it moves a unit, so that some logical number changes. */
static bool play_once(void)
{
    static struct flash f, before;
    flash_new(&f, now.plan.size, now.plan.units, FACTORY_BYTE);
    for (now.at = 0; now.at < now.story.count; now.at++) {
        flash_copy(&before, &f);
        struct call *c = &now.story.call[now.at];
        us_report r = flash_call(&f, c, US_ALL);
        if (c->fills && r.number == US_NO_ROOM) {
            c->due = US_NO_ROOM;
            now.story.count = now.at + 1;
        }
        for (size_t start = 0; now.at > 0 && start < f.length; start += f.size)
            now.reclaims[now.at] |= memcmp(f.bytes + start, before.bytes + start, 2) != 0;
        now.steps[now.at] = r.steps;
        now.all_steps += r.steps;
        if (r.number != c->due || (r.number != US_DONE && !c->fills && r.steps > 0)) {
            printf("WRONG: '%s', uninterrupted, answers %s\n", c->title, number_in_words(r.number));
            now.counts.wrong++;
            return false;
        }
    }
    return true;
}

static void head_line(void)
{
    printf("The depot's terminal, on %" PRIu32 " units of %" PRIu32 " bytes: settings, the staff lists of %" PRIu32
           " nights, two passes.\n",
           now.plan.units, now.plan.size, now.plan.nights);
    printf("%zu calls, %" PRIu32 " steps. The power is cut at every step, and the terminal started again.\n\n", now.story.count,
           now.all_steps);
    printf("%-36s %-13s  %s\n", "call", "cut after", "after the mount the store held");
}

static void brief_line(void)
{
    uint32_t reclaims = 0;
    for (size_t i = 0; i < now.story.count; i++)
        reclaims += now.reclaims[i];
    printf("%2" PRIu32 " nights on %" PRIu32 " units of %4" PRIu32 " bytes: %3zu calls, %" PRIu32 " reclaim%s %5" PRIu32
           " cuts in calls, %6" PRIu32 " in mounts, %6" PRIu32 " images checked\n",
           now.plan.nights, now.plan.units, now.plan.size, now.story.count, reclaims, reclaims == 1 ? "; " : "s;", now.counts.cuts,
           now.counts.mount_cuts, now.counts.images);
}

void cuts_try(const struct plan *plan, struct counts *counts)
{
    memset(&now, 0, sizeof now);
    now.plan = *plan;
    now.most_mount_steps = plan->size / 2 + 1 + (plan->units - 1) * (plan->size - 16) / 8;
    depot_story(&now.story, plan->nights);
    if (plan->fills)
        depot_fill(&now.story, MOST_STORY_PASSES - 2);
    if (play_once()) {
        shelves_fill(&now.shelves, &now.story);
        if (!plan->is_brief)
            head_line();
        for (now.at = 0; now.at < now.story.count; now.at++)
            cut_call();
        if (plan->is_brief)
            brief_line();
        fflush(stdout);
    }
    counts->cuts += now.counts.cuts;
    counts->mount_cuts += now.counts.mount_cuts;
    counts->histories += now.counts.histories;
    counts->images += now.counts.images;
    counts->wrong += now.counts.wrong;
}

void cuts_sum_up(const struct counts *counts)
{
    printf("\n%" PRIu32 " histories were played on from the cut to the last night. ", counts->histories);
    if (counts->wrong > 0)
        printf("WRONG: %" PRIu32 " times.\n", counts->wrong);
    else
        puts("Never half a list, never an empty list, never a pass with one name, never a register that counts otherwise.");
    printf("Cuts tried: %" PRIu32 " in calls, %" PRIu32 " in the mounts after them. Images checked: %" PRIu32 ".\n", counts->cuts,
           counts->mount_cuts, counts->images);
}
