/* Two files in one transaction, its power cut after every number of steps: after the next mount the store holds both or neither.
 *
 * Build, on x86-64:
 *     tools/staticlib c_store
 *     cc -std=c11 -Iinclude -o two-files examples/two-files.c target/staticlib/libc_store.a
 *     ./two-files
 * on 64-bit Arm:
 *     tools/archive aarch64
 *     cc -std=c11 -Iinclude -o two-files examples/two-files.c build/archive/aarch64/libundernshade.a
 *     ./two-files
 */
#include "undernshade.h"

#include <inttypes.h>
#include <stdio.h>
#include <string.h>

enum { SIZE = 512, UNITS = 3, LENGTH = SIZE * UNITS, FIRST = 7, SECOND = 8 };

static uint8_t image[LENGTH];
static const char first_name[] = "Aoife";
static const char second_name[] = "Bartosz";

/* Takes a call's report: its steps come off what is left until the power goes. Tells whether the call was DONE. */
static int done(us_report r, uint32_t *left)
{
    *left -= r.steps;
    return r.number == US_DONE;
}

/* Both files in one transaction, with the power going after `left` steps. Tells whether all calls were done. */
static int take_pass(uint32_t *left)
{
    return done(us_begin(image, LENGTH, SIZE, UNITS, *left), left) &&
           done(us_write(image, LENGTH, SIZE, UNITS, FIRST, (const uint8_t *)first_name, strlen(first_name), *left), left) &&
           done(us_write(image, LENGTH, SIZE, UNITS, SECOND, (const uint8_t *)second_name, strlen(second_name), *left), left) &&
           done(us_commit(image, LENGTH, SIZE, UNITS, *left), left);
}

/* Whether the store holds the file with that content: 1; has no such file: 0; anything else: -1. */
static int holds(uint32_t file, const char *content)
{
    us_report r = us_read(image, LENGTH, SIZE, UNITS, file);
    if (r.number == US_ABSENT)
        return 0;
    return r.number == US_DONE && r.length == strlen(content) && memcmp(image + r.start, content, r.length) == 0 ? 1 : -1;
}

int main(void)
{
    uint32_t cuts = 0, both = 0, neither = 0;
    for (int finished = 0; !finished; cuts++) {
        uint32_t left = cuts;
        if (us_format(image, LENGTH, SIZE, UNITS, US_ALL).number != US_DONE)
            return puts("format: not done"), 1;
        finished = take_pass(&left);
        if (us_mount(image, LENGTH, SIZE, UNITS, US_ALL).number != US_DONE)
            return printf("cut after %" PRIu32 " steps: mount was not done\n", cuts), 1;
        int a = holds(FIRST, first_name), b = holds(SECOND, second_name);
        if (a < 0 || a != b || (finished && a == 0))
            return printf("cut after %" PRIu32 " steps: one name %d, the other %d\n", cuts, a, b), 1;
        if (a)
            both++;
        else
            neither++;
    }
    printf("power cut after 0 to %" PRIu32 " steps: %" PRIu32 " times neither name, %" PRIu32 " times both, never one\n", cuts - 1, neither,
           both);
    return 0;
}
