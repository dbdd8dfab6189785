/* The store on a flash chip that can do two things only, program a word and erase a unit: a call is made on copies in memory, and each of
 * its steps goes to the chip before the next one is made. A list of two files is replaced five times, units are reclaimed for it, and
 * after each step of all this the power goes: the mount that follows, carried over in the same way, finds a whole list every time.
 *
 * Build, on x86-64:
 *     tools/staticlib c_store
 *     cc -std=c11 -Iinclude -o real-flash examples/real-flash.c target/staticlib/libc_store.a
 *     ./real-flash
 * on 64-bit Arm:
 *     tools/archive aarch64
 *     cc -std=c11 -Iinclude -o real-flash examples/real-flash.c build/archive/aarch64/libundernshade.a
 *     ./real-flash
 */
#include "undernshade.h"

#include <stdio.h>
#include <string.h>

enum { SIZE = 512, UNITS = 3, LENGTH = SIZE * UNITS, LISTS = 5, PART = 120, MOST = 2000 };

#include "chip.h"

struct call {
    enum { FORMAT, MOUNT, BEGIN, WRITE, COMMIT } kind;
    uint32_t file;
    const uint8_t *content;
};

static us_report make(const struct call *c, uint8_t *copy, uint32_t allowance)
{
    switch (c->kind) {
    case FORMAT: return us_format(copy, LENGTH, SIZE, UNITS, allowance);
    case MOUNT: return us_mount(copy, LENGTH, SIZE, UNITS, allowance);
    case BEGIN: return us_begin(copy, LENGTH, SIZE, UNITS, allowance);
    case WRITE: return us_write(copy, LENGTH, SIZE, UNITS, c->file, c->content, PART, allowance);
    default: return us_commit(copy, LENGTH, SIZE, UNITS, allowance);
    }
}

/* Makes a call on the chip. Each copy starts from the image before the call; n steps allowed, the n-th is the one that is new. */
static us_report on_chip(struct call c)
{
    static uint8_t before[LENGTH], copy[LENGTH];
    memcpy(before, image, LENGTH);
    for (uint32_t n = 1;; n++) {
        memcpy(copy, before, LENGTH);
        us_report r = make(&c, copy, n);
        if (r.steps == n)
            carry(copy);
        if (r.number != US_STOPPED)
            return r;
    }
}

/* The device starts: nothing is left in memory. Tells which list the store holds, 0 for none, or -1 where it is not a whole one. */
static int restart(void)
{
    memcpy(image, chip, LENGTH);
    if (on_chip((struct call){ .kind = MOUNT }).number != US_DONE || memcmp(image, chip, LENGTH) != 0)
        return -1;
    us_report a = us_read(image, LENGTH, SIZE, UNITS, 1), b = us_read(image, LENGTH, SIZE, UNITS, 2);
    if (a.number == US_ABSENT && b.number == US_ABSENT)
        return 0;
    if (a.number != US_DONE || b.number != US_DONE || a.length != PART || b.length != PART)
        return -1;
    for (size_t i = 1; i < PART; i++)
        if (image[a.start + i] != image[a.start] || image[b.start + i] != image[a.start])
            return -1;
    return image[a.start];
}

static int done(struct call c)
{
    return on_chip(c).number == US_DONE;
}

static int replace(const uint8_t *list)
{
    return done((struct call){ .kind = BEGIN }) && done((struct call){ .kind = WRITE, .file = 1, .content = list }) &&
           done((struct call){ .kind = WRITE, .file = 2, .content = list }) && done((struct call){ .kind = COMMIT });
}

int main(void)
{
    static uint8_t list[PART];
    memset(chip, 0x5A, LENGTH);
    memcpy(image, chip, LENGTH);
    if (!done((struct call){ .kind = FORMAT }))
        return puts("format: not done"), 1;
    watched = 1;
    for (int which = 1; which <= LISTS; which++) {
        memset(list, which, PART);
        if (!replace(list))
            return printf("list %d: not done\n", which), 1;
    }
    watched = 0;
    int last = cut_after_each_step(restart, "list");
    if (last < 0)
        return 1;
    printf("power cut after each of %zu steps: a whole list every time, the last one %d\n", steps, last);
    return 0;
}
