#include "table_emit.h"

#include <inttypes.h>
#include <string.h>

#include "table_claims.h"

enum { KIND_FILL = CALL_KINDS, TABLE_KINDS };

struct table beside = { .entries = TABLE_ENTRIES };
static struct table kept;

/* Which call left it; image and table were last left by the same one where the two are the same. */
static uint64_t marks, image_mark, table_mark, kept_image_mark, kept_table_mark;
static bool damaged, kept_damaged;

static struct {
    uint64_t calls, stopped, unstarted, stale, damaged, other_length, apart, contradicted;
    uint64_t kind[TABLE_KINDS], number[TABLE_NUMBERS], read[TABLE_NUMBERS], read_apart[TABLE_NUMBERS];
    uint64_t puts, looks, entry_state[4];
} tally;

static bool together(void)
{
    return image_mark == table_mark;
}

static void image_changed(void)
{
    image_mark = ++marks;
}

static void table_changed(void)
{
    table_mark = ++marks;
}

void start_pair(uint32_t unit_size, uint32_t units)
{
    emit_new(unit_size, units);
    image_changed();
    table_size(0);
    table_size(TABLE_ENTRIES);
    damaged = false;
}

static void count(const struct call *c, struct answer a, bool was_together)
{
    bool reads = c != NULL && c->kind == CALL_READ;
    bool usable = table_usable(&beside);
    tally.calls++;
    tally.kind[c == NULL ? KIND_FILL : c->kind]++;
    tally.number[a.number]++;
    tally.stopped += a.number == STOPPED;
    tally.unstarted += a.number == STOPPED && a.steps == 0;
    tally.stale += a.number == STALE_TABLE;
    tally.damaged += damaged;
    tally.other_length += beside.entries != TABLE_ENTRIES;
    tally.apart += !was_together && usable;
    tally.contradicted += reads && a.number == STALE_TABLE && usable;
    if (reads)
        (was_together ? tally.read : tally.read_apart)[a.number]++;
    if (reads && c->file <= MAX_FILE && beside.entries == TABLE_ENTRIES)
        tally.entry_state[beside.entry[c->file].state < 3 ? beside.entry[c->file].state : 3]++;
}

/* A call that is DONE or STOPPED through the table leaves both, save where it only carried on with a table of another image. */
static void leave(const struct call *c, struct answer a, bool was_together)
{
    bool fills = c == NULL || c->kind == CALL_FORMAT || c->kind == CALL_MOUNT;
    bool reads = c != NULL && c->kind == CALL_READ;
    if (reads || a.number > STOPPED)
        return;
    image_changed();
    if (a.number == DONE && !fills && !was_together)
        return;
    table_mark = image_mark;
    if (a.number == DONE && fills)
        damaged = false;
}

static struct answer play(const struct call *c, uint32_t allowance)
{
    static struct pair from, to;
    bool was_together = together();
    from = (struct pair){ scene, beside, was_together };
    from.bench.flash.image = from.bench.image;
    struct answer a = table_make(scene.flash, &beside, c, allowance);
    count(c, a, was_together);
    leave(c, a, was_together);
    to = (struct pair){ scene, beside, together() };
    to.bench.flash.image = to.bench.image;
    check_claims(&from, &to, c, allowance, a);
    return a;
}

struct answer through(const struct call *c, uint32_t allowance)
{
    putchar('t');
    call_print(c, allowance);
    return play(c, allowance);
}

struct answer through_fill(void)
{
    puts("tfill");
    return play(NULL, 0);
}

void table_size(uint32_t entries)
{
    printf("tsize %" PRIu32 "\n", entries);
    if (entries < MAX_TABLE)
        memset(beside.entry + entries, 0, (MAX_TABLE - entries) * sizeof beside.entry[0]);
    if (entries != beside.entries)
        table_changed();
    beside.entries = entries;
}

void table_keep(void)
{
    puts("tkeep");
    kept = beside;
    kept_table_mark = table_mark;
    kept_damaged = damaged;
}

void table_back(void)
{
    puts("tback");
    beside = kept;
    table_mark = kept_table_mark;
    damaged = kept_damaged;
}

void table_look(void)
{
    puts("tshow");
    tally.looks++;
}

void table_look_at(uint32_t i)
{
    printf("tentry %" PRIu32 "\n", i);
    tally.looks++;
}

static void put(uint32_t place, uint32_t value)
{
    printf("tput %" PRIu32 " %" PRIu32 "\n", place, value);
    tally.puts++;
}

void table_become(const struct table *t)
{
    for (uint32_t i = 0; i < beside.entries && i < t->entries; i++) {
        struct table_entry was = beside.entry[i], now = t->entry[i];
        if (was.state != now.state)
            put(4 * i, now.state);
        if (was.unit != now.unit)
            put(4 * i + 1, now.unit);
        if (was.position != now.position)
            put(4 * i + 2, now.position);
        if (was.length != now.length)
            put(4 * i + 3, now.length);
        if (memcmp(&was, &now, sizeof now) == 0)
            continue;
        beside.entry[i] = now;
        table_changed();
        damaged = true;
    }
}

/* A call that makes no step leaves the image as it was. */
struct answer image_call(const struct call *c, uint32_t allowance)
{
    struct answer a = emit_call(c, allowance);
    if (a.number <= STOPPED && a.steps > 0)
        image_changed();
    return a;
}

void image_become(const struct bench *image)
{
    emit_image(image, true);
    image_changed();
}

void image_size(uint32_t length)
{
    emit_size(length);
    image_changed();
}

void image_keep(void)
{
    emit_keep();
    kept_image_mark = image_mark;
}

void image_back(void)
{
    emit_back();
    image_mark = kept_image_mark;
}

uint64_t emitted_through(void)
{
    return tally.calls;
}

static void print_numbers(FILE *out, const char *title, const uint64_t *row)
{
    fputs(title, out);
    for (uint32_t i = 0; i < TABLE_NUMBERS; i++)
        if (i != BAD_HANDLE)
            fprintf(out, " %" PRIu32 "=%" PRIu64, i, row[i]);
    putc('\n', out);
}

void table_print_counts(FILE *out)
{
    static const char *const names[TABLE_KINDS] = { "format", "mount", "begin", "write", "delete", "commit",
                                                    "abort",  "read",  NULL,    NULL,    "fill" };
    fprintf(out,
            "through all=%" PRIu64 " stopped=%" PRIu64 " stopped-before-a-step=%" PRIu64 " stale=%" PRIu64 " table-damaged=%" PRIu64
            " other-length=%" PRIu64 " usable-beside-another-image=%" PRIu64 " contradicted=%" PRIu64 "\n",
            tally.calls, tally.stopped, tally.unstarted, tally.stale, tally.damaged, tally.other_length, tally.apart, tally.contradicted);
    fputs("through-kinds", out);
    for (uint32_t i = 0; i < TABLE_KINDS; i++)
        if (names[i] != NULL)
            fprintf(out, " %s=%" PRIu64, names[i], tally.kind[i]);
    putc('\n', out);
    print_numbers(out, "through-numbers", tally.number);
    print_numbers(out, "reads-of-its-own-image", tally.read);
    print_numbers(out, "reads-of-another-image", tally.read_apart);
    fprintf(out, "entries-read mark=%" PRIu64 " no-file=%" PRIu64 " file=%" PRIu64 " other-state=%" PRIu64 "\n", tally.entry_state[0],
            tally.entry_state[1], tally.entry_state[2], tally.entry_state[3]);
    fprintf(out, "beside-the-calls puts=%" PRIu64 " looks=%" PRIu64 "\n", tally.puts, tally.looks);
    print_claims(out);
}
