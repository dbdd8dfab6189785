/* The store on a flash chip as in real-flash.c, with a table beside the image. Forty rows of a roster stand in the store, and a badge looks
 * at all of them through the table. Eight rows at a time are changed, units are reclaimed for it, and after each step of all this the power
 * goes: the start that follows mounts, which fills the table again, and finds the rows of whole transactions every time.
 *
 * Build, on x86-64:
 *     tools/staticlib c_store c_table
 *     cc -std=c11 -Iinclude -o table-flash examples/table-flash.c target/staticlib/libc_table.a target/staticlib/libc_store.a
 *     ./table-flash
 * on 64-bit Arm:
 *     tools/archive aarch64
 *     cc -std=c11 -Iinclude -o table-flash examples/table-flash.c build/archive/aarch64/libundernshade.a
 *     ./table-flash
 */
#include "undernshade_table.h"

#include <stdio.h>
#include <string.h>

enum { SIZE = 1024, UNITS = 3, LENGTH = SIZE * UNITS, ROWS = 40, AT_ONCE = 8, ROW = 20, CHANGES = 8, MOST = 6000 };

#include "chip.h"

/* The table belongs to the image. */
static us_entry table[US_ENTRIES];

struct call {
    enum { FORMAT, MOUNT, BEGIN, WRITE, COMMIT } kind;
    uint32_t file;
    const uint8_t *content;
};

static us_report make(const struct call *c, uint8_t *copy, us_entry *tried, uint32_t allowance)
{
    switch (c->kind) {
    case FORMAT: return us_table_format(copy, LENGTH, SIZE, UNITS, tried, US_ENTRIES, allowance);
    case MOUNT: return us_table_mount(copy, LENGTH, SIZE, UNITS, tried, US_ENTRIES, allowance);
    case BEGIN: return us_table_begin(copy, LENGTH, SIZE, UNITS, tried, US_ENTRIES, allowance);
    case WRITE: return us_table_write(copy, LENGTH, SIZE, UNITS, tried, US_ENTRIES, c->file, c->content, ROW, allowance);
    default: return us_table_commit(copy, LENGTH, SIZE, UNITS, tried, US_ENTRIES, allowance);
    }
}

/* Makes a call on the chip. Each try starts from the image and the table before the call, for every try that is stopped marks its table. */
static us_report on_chip(struct call c)
{
    static uint8_t before[LENGTH], copy[LENGTH];
    static us_entry tried[US_ENTRIES];
    memcpy(before, image, LENGTH);
    for (uint32_t n = 1;; n++) {
        memcpy(copy, before, LENGTH);
        memcpy(tried, table, sizeof table);
        us_report r = make(&c, copy, tried, n);
        if (r.steps == n)
            carry(copy);
        if (r.number != US_STOPPED) {
            memcpy(table, tried, sizeof table);
            return r;
        }
    }
}

/* A badge: looks at forty rows through the table. How many changes they show, or -1 where they are not those of whole transactions, or
 * where a read through the table is not what the plain read says. */
static int badge(void)
{
    int of_row[ROWS], most = 0;
    for (uint32_t row = 0; row < ROWS; row++) {
        us_report r = us_table_read(image, LENGTH, SIZE, UNITS, table, US_ENTRIES, row);
        us_report plain = us_read(image, LENGTH, SIZE, UNITS, row);
        if (r.number != US_DONE || plain.number != US_DONE || r.start != plain.start || r.length != plain.length || r.length != ROW)
            return -1;
        of_row[row] = image[r.start];
        most = of_row[row] > most ? of_row[row] : most;
    }
    for (int row = 0; row < ROWS; row++) {
        int last = 0;
        for (int change = 1; change <= most; change++)
            if ((row + ROWS - change * AT_ONCE % ROWS) % ROWS < AT_ONCE)
                last = change;
        if (of_row[row] != last)
            return -1;
    }
    return most;
}

/* The device starts: nothing is left in memory, not the table either. */
static int restart(void)
{
    memcpy(image, chip, LENGTH);
    memset(table, 0, sizeof table);
    if (us_table_read(image, LENGTH, SIZE, UNITS, table, US_ENTRIES, 0).number == US_DONE)
        return -1;
    return on_chip((struct call){ .kind = MOUNT }).number == US_DONE ? badge() : -1;
}

static int done(struct call c)
{
    return on_chip(c).number == US_DONE;
}

/* One transaction: the rows from `first` on become those of this change. */
static int change(int which, int first, int rows)
{
    static uint8_t row[ROW];
    memset(row, which, ROW);
    if (!done((struct call){ .kind = BEGIN }))
        return 0;
    for (int i = 0; i < rows; i++)
        if (!done((struct call){ .kind = WRITE, .file = (uint32_t)((first + i) % ROWS), .content = row }))
            return 0;
    return done((struct call){ .kind = COMMIT });
}

int main(void)
{
    memset(chip, 0x5A, LENGTH);
    memcpy(image, chip, LENGTH);
    if (!done((struct call){ .kind = FORMAT }) || !change(0, 0, ROWS) || badge() != 0)
        return puts("the roster: not done"), 1;
    watched = 1;
    for (int which = 1; which <= CHANGES; which++)
        if (!change(which, which * AT_ONCE % ROWS, AT_ONCE) || badge() != which)
            return printf("change %d: not done\n", which), 1;
    watched = 0;
    int last = cut_after_each_step(restart, "change");
    if (last < 0)
        return 1;
    printf("power cut after each of %zu steps: forty rows through the table every time, of whole changes, the last one %d\n", steps, last);
    return 0;
}
