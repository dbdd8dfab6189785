/* peer-samples FILE: the images that speed is measured on, as records, and a line on each. */
#include <inttypes.h>
#include <stdio.h>
#include <stdlib.h>

#include "../checks/random.h"
#include "../checks/run.h"
#include "compose.h"
#include "record.h"

static FILE *out;

static uint32_t descriptors(const struct bench *b)
{
    uint32_t sum = 0;
    for (uint32_t u = 0; u < b->flash.units; u++)
        sum += unit_array(&b->flash, u).n;
    return sum;
}

static void give(const struct bench *b, const char *what, enum group due)
{
    if (bench_group(b) != due) {
        fprintf(stderr, "peer-samples: %s: not in the group that it should be in\n", what);
        exit(2);
    }
    record_write(out, &b->flash);
    printf("%s (%" PRIu32 " descriptors)\n", what, descriptors(b));
}

/* Lengths that fill a unit of 512 with some ten sectors, larger units with some thirty. */
static void write_call(struct call *c, const struct bench *b)
{
    uint32_t most = b->flash.unit_size == 512 ? 64 : MAX_CONTENT;
    *c = (struct call){ .kind = CALL_WRITE };
    c->file = random_below(b->flash.unit_size == 512 ? 8 : MAX_FILE + 1);
    c->length = random_below(most + 1);
    for (uint32_t i = 0; i < c->length; i++)
        c->content[i] = (uint8_t)random_below(256);
}

/* Transactions of up to eight writes until one has to reclaim, or finds no room; that one is
   left open, and its call is given. */
static struct call fill(struct bench *b)
{
    static const struct call begin = { .kind = CALL_BEGIN }, commit = { .kind = CALL_COMMIT };
    static struct bench before;
    struct call c;
    for (;;) {
        call_make(b->flash, &begin, PLENTY);
        for (uint32_t i = random_between(1, 8); i > 0; i--) {
            struct store s;
            write_call(&c, b);
            bench_copy(&before, b);
            judge(&b->flash, &s);
            uint32_t spare = s.spare;
            struct answer a = call_make(b->flash, &c, PLENTY);
            judge(&b->flash, &s);
            if (a.number != DONE || s.spare != spare) {
                bench_copy(b, &before);
                return c;
            }
        }
        call_make(b->flash, &commit, PLENTY);
    }
}

/* The call is stopped when most of the copy stands. */
static void stop_in_move(struct bench *b, const struct call *c)
{
    static struct bench from, last;
    bench_copy(&from, b);
    bench_copy(&last, b);
    for (uint32_t k = 1;; k++) {
        bench_copy(b, &from);
        call_make(b->flash, c, k);
        if (bench_group(b) != GROUP_MOVING_HOME_LIVE)
            break;
        bench_copy(&last, b);
    }
    bench_copy(b, &last);
}

static void give_full(const char *what, const char *moving, uint32_t unit_size, uint32_t units)
{
    static struct bench b;
    bench_formatted(&b, unit_size, units);
    struct call c = fill(&b);
    give(&b, what, GROUP_SETTLED);
    if (moving == NULL)
        return;
    stop_in_move(&b, &c);
    give(&b, moving, GROUP_MOVING_HOME_LIVE);
}

static void give_crowded(const char *what, uint32_t unit_size, uint32_t units)
{
    static struct bench b;
    compose_crowded(&b, unit_size, units);
    give(&b, what, GROUP_SETTLED);
}

static void give_reclaimed(const char *what, uint32_t unit_size, uint32_t units)
{
    static struct bench b;
    compose_reclaimed(&b, unit_size, units);
    give(&b, what, GROUP_SETTLED);
}

static void give_formatted(const char *what, uint32_t unit_size, uint32_t units)
{
    static struct bench b;
    bench_formatted(&b, unit_size, units);
    give(&b, what, GROUP_SETTLED);
}

int main(int argc, char **argv)
{
    if (argc != 2) {
        fputs("usage: peer-samples FILE\n", stderr);
        return 2;
    }
    random_seed(1);
    out = record_open(argv[1]);
    give_full("16 units of 4096, full, settled", "16 units of 4096, one moving", 4096, 16);
    give_full("3 units of 512, full, settled", "3 units of 512, one moving", 512, 3);
    give_crowded("16 units of 4096, two-byte sectors in no order", 4096, 16);
    give_full("64 units of 1024, full, settled", NULL, 1024, 64);
    give_formatted("16 units of 4096, formatted", 4096, 16);
    give_formatted("3 units of 512, formatted", 512, 3);
    give_reclaimed("16 units of 4096, two-byte sectors as reclaims leave them", 4096, 16);
    give_crowded("32 units of 2048, two-byte sectors in no order", 2048, 32);
    give_crowded("64 units of 1024, two-byte sectors in no order", 1024, 64);
    give_crowded("64 units of 512, two-byte sectors in no order", 512, 64);
    record_close(out);
    return fflush(stdout) == 0 ? EXIT_SUCCESS : 2;
}
