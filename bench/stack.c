/* stack [SIZE UNITS]..: the deepest stack of each call on these geometries, or on many: painted, in all situations and on damaged
   images. Counted are the bytes below the caller's that were written, with the return address and the arguments that are passed there. */
#include <inttypes.h>
#include <stdio.h>
#include <stdlib.h>
#include <string.h>
#include <ucontext.h>

#include "../peer/checks/random.h"
#include "situations.h"

enum { STACK = 256 * 1024, PAINT = 0xA5, RETURN_ADDRESS = 8, HARMS = 40, MOST_SHAPES = 64 };

static uint8_t stack[STACK];
static ucontext_t here, there;
static struct situation situations[MOST_SITUATIONS];

/* What is called on the painted stack. */
static const struct side *side;
static struct situation *situation;
static us_report report;

struct deepest {
    size_t bytes;
    const char *name;
    uint32_t size, units;
    bool harmed;
};

static us_report nothing(uint8_t *image, size_t length, uint32_t size, uint32_t units, uint32_t allowance)
{
    (void)image, (void)length, (void)size, (void)units, (void)allowance;
    return (us_report){ 0 };
}

static const struct side nothing_side = { .format = nothing };

static void on_painted_stack(void)
{
    report = situation_call(side, situation, situation->image.bytes);
}

/* Bytes of the painted stack from the lowest that was changed to its top. */
static size_t used(const struct side *s, struct situation *at)
{
    memset(stack, PAINT, sizeof stack);
    side = s;
    situation = at;
    if (getcontext(&there) != 0)
        exit(2);
    there.uc_stack.ss_sp = stack;
    there.uc_stack.ss_size = sizeof stack;
    there.uc_link = &here;
    makecontext(&there, on_painted_stack, 0);
    if (swapcontext(&here, &there) != 0)
        exit(2);
    size_t low = 0;
    while (low < sizeof stack && stack[low] == PAINT)
        low++;
    return sizeof stack - low;
}

/* The image is another one afterwards. */
static void measure(const struct side *s, struct situation *at, bool harmed, size_t base, struct deepest *deepest)
{
    static struct situation try;
    try = *at;
    size_t bytes = used(s, &try) - base + RETURN_ADDRESS;
    struct deepest *d = &deepest[at->call];
    if (bytes > d->bytes)
        *d = (struct deepest){ bytes, at->name, at->image.size, at->image.units, harmed };
}

/* Any byte, or one of a header or of the first descriptors, becomes another. */
static void harm(struct image *i)
{
    uint32_t unit = random_below(i->units);
    uint32_t at = random_chance(50) ? random_below(i->size) : random_below(64);
    i->bytes[unit * i->size + at] = (uint8_t)random_below(256);
}

static void measure_geometry(const struct side *s, uint32_t size, uint32_t units, size_t base, struct deepest *deepest)
{
    static struct situation harmed;
    uint32_t many = situations_make(situations, size, units);
    for (uint32_t i = 0; i < many; i++)
        measure(s, &situations[i], false, base, deepest);
    for (uint32_t k = 0; k < HARMS; k++) {
        harmed = situations[random_below(many)];
        for (uint32_t h = random_between(1, 3); h > 0; h--)
            harm(&harmed.image);
        for (uint32_t c = 0; c < CALLS; c++) {
            harmed.call = (enum call)c;
            measure(s, &harmed, true, base, deepest);
        }
    }
}

static void measure_side(const struct side *s, const char *name, const uint32_t *shapes, size_t count)
{
    struct deepest deepest[CALLS] = { { 0 } };
    static struct situation bare = { .call = FORMAT };
    size_t base = used(&nothing_side, &bare);
    for (size_t k = 0; k < count; k += 2)
        measure_geometry(s, shapes[k], shapes[k + 1], base, deepest);
    for (uint32_t c = 0; c < CALLS; c++)
        if (deepest[c].bytes > 0)
            printf("%s\t%s\t%zu\t%" PRIu32 "\t%" PRIu32 "\t%s%s\n", name, call_names[c], deepest[c].bytes, deepest[c].size,
                   deepest[c].units, deepest[c].name, deepest[c].harmed ? " (damaged)" : "");
    fflush(stdout);
}

/* The smallest and the largest numbers of units, and some between. */
static size_t all_shapes(uint32_t *shapes)
{
    static const uint32_t units[] = { 3, 4, 5, 8, 15, 16, 17, 31, 32, 33, 56, 63, 64 };
    size_t count = 0;
    for (uint32_t size = 512; size <= 4096; size *= 2)
        for (size_t k = 0; k < sizeof units / sizeof units[0] && size * units[k] <= LARGEST_IMAGE; k++) {
            shapes[count++] = size;
            shapes[count++] = units[k];
        }
    return count;
}

int main(int argc, char **argv)
{
    uint32_t shapes[MOST_SHAPES * 2];
    size_t count = (size_t)argc - 1;
    if (count % 2 != 0 || count > MOST_SHAPES * 2) {
        fputs("usage: stack [SIZE UNITS]..\n", stderr);
        return 2;
    }
    for (size_t k = 0; k < count; k++)
        shapes[k] = (uint32_t)strtoul(argv[k + 1], NULL, 10);
    if (count == 0)
        count = all_shapes(shapes);
    measure_side(&store_side, "store", shapes, count);
    measure_side(&second_side, "second", shapes, count);
    return EXIT_SUCCESS;
}
