/* bench-judge FILE <NAMES: the time of us_first over that of us_sum on each record of the file.
   bench-judge FILE NUMBER WHAT: one call of `first`, `sum` or `none` on one record, to be counted. */
#include <inttypes.h>
#include <stdio.h>
#include <stdlib.h>
#include <string.h>
#include <time.h>

#include "judge.h"
#include "records.h"

enum { RUNS = 101, RUN_NS = 2000000, MAX_NAME = 200 };

enum what { FIRST, SUM, NONE };

static volatile uint32_t sink;

static void call(const struct record *r, enum what what)
{
    if (what == FIRST)
        sink += us_first(r->image, r->length, r->unit_size, r->units);
    else if (what == SUM)
        sink += us_sum(r->image, r->length);
}

/* Of processor time: what others do on the machine is not in it. */
static double nanoseconds(void)
{
    struct timespec t;
    clock_gettime(CLOCK_PROCESS_CPUTIME_ID, &t);
    return (double)t.tv_sec * 1e9 + (double)t.tv_nsec;
}

/* The time of one call, as the mean of so many. */
static double time_of(const struct record *r, enum what what, uint32_t calls)
{
    double start = nanoseconds();
    for (uint32_t i = 0; i < calls; i++)
        call(r, what);
    return (nanoseconds() - start) / calls;
}

/* So many calls that a run is not over before the clock is sure of it. */
static uint32_t enough_calls(const struct record *r, enum what what)
{
    uint32_t calls = 1;
    while (time_of(r, what, calls) * calls < RUN_NS)
        calls *= 2;
    return calls;
}

static int compare(const void *a, const void *b)
{
    double x = *(const double *)a, y = *(const double *)b;
    return (x > y) - (x < y);
}

static void measure(const struct record *r, const char *name)
{
    double first[RUNS], sum[RUNS], ratio[RUNS];
    uint32_t first_calls = enough_calls(r, FIRST);
    uint32_t sum_calls = enough_calls(r, SUM);
    for (uint32_t i = 0; i < RUNS; i++) {
        first[i] = time_of(r, FIRST, first_calls);
        sum[i] = time_of(r, SUM, sum_calls);
        ratio[i] = first[i] / sum[i];
    }
    qsort(first, RUNS, sizeof first[0], compare);
    qsort(sum, RUNS, sizeof sum[0], compare);
    qsort(ratio, RUNS, sizeof ratio[0], compare);
    printf("%s: number %" PRIu32 ", ratio %.2f (half of the runs: %.2f to %.2f), judge %.2f us, sum %.2f us\n", name,
           us_first(r->image, r->length, r->unit_size, r->units), ratio[RUNS / 2], ratio[RUNS / 4], ratio[RUNS * 3 / 4],
           first[RUNS / 2] / 1e3, sum[RUNS / 2] / 1e3);
    fflush(stdout);
}

static int measure_all(FILE *in)
{
    struct record r = { 0 };
    char name[MAX_NAME];
    while (record_read(&r, in)) {
        if (fgets(name, sizeof name, stdin) == NULL)
            strcpy(name, "an image without a name");
        name[strcspn(name, "\n")] = '\0';
        measure(&r, name);
    }
    free(r.image);
    return EXIT_SUCCESS;
}

static int call_once(FILE *in, const char *number, const char *what)
{
    struct record r = { 0 };
    for (unsigned long i = strtoul(number, NULL, 10); i > 0; i--) {
        if (!record_read(&r, in)) {
            fputs("bench-judge: the file has fewer records\n", stderr);
            return 2;
        }
    }
    call(&r, strcmp(what, "first") == 0 ? FIRST : strcmp(what, "sum") == 0 ? SUM : NONE);
    free(r.image);
    return EXIT_SUCCESS;
}

int main(int argc, char **argv)
{
    if (argc != 2 && argc != 4) {
        fputs("usage: bench-judge FILE <NAMES, or bench-judge FILE NUMBER first|sum|none\n", stderr);
        return 2;
    }
    FILE *in = records_open(argv[1]);
    int status = argc == 2 ? measure_all(in) : call_once(in, argv[2], argv[3]);
    fclose(in);
    return status;
}
