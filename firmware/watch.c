#include "watch.h"

#include <inttypes.h>
#include <stdio.h>
#include <stdlib.h>
#include <string.h>
#include <time.h>
#include <unistd.h>

#include "depot.h"
#include "draft.h"
#include "layout.h"
#include "steps.h"

/* What the person asked for at a step. */
enum wish { NEXT, CUT, WHOLE_CALL, TO_THE_END, QUIT };

/* Where the power goes when nobody is asked, each time once. */
static struct {
    const char *title;
    uint32_t made;
    bool is_over;
} cut_here[] = { { "write night 14's names, part 1", 70, false },
                 { "commit night 14's list", 3, false },
                 { "give a pass to 137 and 119", 22, false } };

static const char keys[] =
    "Enter makes the next step; c cuts the power, n ends this call, e plays to the end, q quits (each with Enter).\n";

static bool asks;
static unsigned delay;
static enum wish wish;

static void ask(void)
{
    char line[80];
    fflush(stdout);
    if (!asks) {
        struct timespec pause = { delay / 1000, (long)(delay % 1000) * 1000000 };
        nanosleep(&pause, NULL);
        return;
    }
    while (wish == NEXT) {
        if (fgets(line, sizeof line, stdin) == NULL || line[0] == 'q')
            wish = QUIT;
        else if (line[0] == 'c')
            wish = CUT;
        else if (line[0] == 'n')
            wish = WHOLE_CALL;
        else if (line[0] == 'e')
            wish = TO_THE_END;
        else if (line[0] == '\n')
            return;
        else
            fputs(keys, stdout);
        fflush(stdout);
    }
}

static bool is_cut(const struct call *c, uint32_t made)
{
    if (asks)
        return wish == CUT;
    for (size_t i = 0; i < sizeof cut_here / sizeof cut_here[0]; i++)
        if (!cut_here[i].is_over && cut_here[i].made == made && strcmp(cut_here[i].title, c->title) == 0)
            return cut_here[i].is_over = true;
    return false;
}

/* One line a unit: who it is, how many descriptors of each kind it has, and its gap. */
static void show_units(const struct flash *f)
{
    static const enum kind shown[] = { CURRENT, PENDING, OLD, ALLOCATED, TORN, VOID };
    for (uint32_t number = 0; number < f->units; number++) {
        struct unit u;
        uint32_t many[KINDS] = { 0 };
        layout_unit(&u, f->bytes + (size_t)number * f->size, f->size);
        if (u.is_erased) {
            printf("    unit %" PRIu32 ": spare\n", number);
            continue;
        }
        printf("    unit %" PRIu32 ": logical %u, %s;", number, (unsigned)u.logical, state_in_words(u.state));
        for (uint32_t p = 0; p < u.n; p++)
            many[layout_descriptor(&u, p).kind]++;
        for (size_t i = 0; i < sizeof shown / sizeof shown[0]; i++)
            if (many[shown[i]] > 0)
                printf(" %" PRIu32 " %s,", many[shown[i]], kind_name(shown[i]));
        printf(" gap %" PRIu32 " bytes\n", u.low - HEADER_BYTES - DESCRIPTOR_BYTES * u.n);
    }
}

/* Plays a call step by step. Its answer is STOPPED where the power was cut, and the image is as the cut left it. */
static uint32_t play(struct flash *f, const struct call *c)
{
    static struct flash before, after;
    char words[120];
    struct step s;
    us_report r;
    flash_copy(&before, f);
    flash_copy(&after, f);
    uint32_t steps = flash_call(&after, c, US_ALL).steps;
    printf("\n%s\n", c->title);
    for (uint32_t made = 0; step_reach(&before, c, made, &after, &r); made++) {
        if (made > 0 && step_between(f, &after, &s)) {
            step_in_words(&after, &s, words);
            printf("  %3" PRIu32 " of %" PRIu32 "  %s\n", made, steps, words);
        }
        flash_copy(f, &after);
        ask();
        if (wish == QUIT)
            return US_DONE;
        if (is_cut(c, made)) {
            printf("  ---- the power is cut after %" PRIu32 " of %" PRIu32 " steps ----\n", made, steps);
            show_units(f);
            return US_STOPPED;
        }
    }
    if (r.number == US_DONE && step_between(f, &after, &s)) {
        step_in_words(&after, &s, words);
        printf("  %3" PRIu32 " of %" PRIu32 "  %s\n", r.steps, steps, words);
    }
    flash_copy(f, &after);
    if (wish != TO_THE_END)
        wish = NEXT;
    return r.number;
}

static bool show(const struct flash *f)
{
    static struct held held;
    depot_look(f, &held, MOST_STORY_PASSES);
    printf("  the store holds: %s\n", held.text);
    show_units(f);
    return held.is_whole;
}

/* The power comes back: the terminal mounts, and may be cut again while it does. */
static bool restart(struct flash *f)
{
    struct call mount = { .verb = MOUNT, .title = "mount" };
    uint32_t number;
    do {
        flash_lose_power(f);
        wish = wish == CUT ? NEXT : wish;
        number = play(f, &mount);
    } while (number == US_STOPPED);
    if (number == US_BAD_IMAGE) {
        puts("  no store yet: it is formatted again");
        return true;
    }
    return wish == QUIT || (number == US_DONE && show(f));
}

static size_t passes_in(const struct flash *f)
{
    return us_register(f->bytes, f->length, f->size, f->units).count;
}

/* Where the story goes on after call i was cut: with the transaction's begin, where its commit step was not made. */
static size_t goes_on_at(const struct history *h, size_t i, bool committed)
{
    if (committed)
        return i + 1;
    while (!begins_a_transaction(&h->call[i]))
        i--;
    return i;
}

bool watch(uint32_t size, uint32_t units, uint32_t nights, bool has_delay, unsigned milliseconds)
{
    static struct history story;
    static struct flash f;
    asks = !has_delay && isatty(STDIN_FILENO);
    delay = has_delay ? milliseconds : 0;
    depot_story(&story, nights);
    flash_new(&f, size, units, FACTORY_BYTE);
    printf("The depot's story on %" PRIu32 " units of %" PRIu32 " bytes, one step a line: a word programmed or a unit erased.\n", units,
           size);
    if (asks)
        fputs(keys, stdout);
    else if (!has_delay)
        puts("Standard input is no terminal: it goes on by itself, and the power is cut three times.");
    for (size_t i = 0; i < story.count && wish != QUIT;) {
        const struct call *c = &story.call[i];
        size_t passes = passes_in(&f);
        uint32_t number = play(&f, c);
        if (number == US_STOPPED) {
            /* A commit that is cut before its commit step has made no step: the image is settled still. */
            bool committed = c->verb == COMMIT && !flash_is_settled(&f);
            if (!restart(&f))
                return false;
            i = goes_on_at(&story, i, committed || (c->verb == GIVE && passes_in(&f) > passes));
            continue;
        }
        if (wish != QUIT && number != US_DONE)
            printf("  refused: %s\n", number_in_words(number));
        if (wish != QUIT && number != c->due)
            return false;
        if ((c->verb == COMMIT || c->verb == ABORT || c->verb == FORMAT || (c->verb == GIVE && number == US_DONE)) && wish != QUIT &&
            !show(&f))
            return false;
        if ((c->verb == WRITE || c->verb == DELETE) && wish != QUIT && draft_show(&f) != US_DONE)
            return false;
        i++;
    }
    return true;
}
