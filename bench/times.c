/* times RUNS: the time of each call beside the second program's and beside the judge's, in one run.
   times save SIZE UNITS FILE: writes the situations of a geometry, and prints a line on each.
   times count FILE NUMBER WHAT: one call in one of them, to be counted. WHAT is 0 for the store's, 1 for the second program's and 2 for
   the judge; 4 is a call that does nothing, so that the way to a call can be left out of its count, and 3 is no call. */
#include <inttypes.h>
#include <stdio.h>
#include <stdlib.h>
#include <string.h>
#include <time.h>

#include "judge.h"
#include "situations.h"

enum { MOST_RUNS = 1001, ROOM = 512 * 1024, MOST_COPIES = 64, WHATS = 3 };

enum what { STORE, SECOND, JUDGE, NONE, EMPTY };

static struct situation situations[MOST_SITUATIONS];
static uint8_t copies[ROOM];
static volatile uint32_t sink;

/* Of processor time: what others do on the machine is not in it. */
static double nanoseconds(void)
{
    struct timespec t;
    clock_gettime(CLOCK_PROCESS_CPUTIME_ID, &t);
    return (double)t.tv_sec * 1e9 + (double)t.tv_nsec;
}

static void call(const struct situation *s, enum what what, uint8_t *bytes)
{
    if (what == JUDGE)
        sink += us_first(bytes, s->image.length, s->image.size, s->image.units);
    else if (what != NONE)
        sink += situation_call(what == STORE ? &store_side : what == SECOND ? &second_side : &empty_side, s, bytes).number;
}

/* Of one call, as the mean of calls on fresh copies of the image, one after another. */
static double time_of(const struct situation *s, enum what what)
{
    size_t length = s->image.length;
    size_t many = ROOM / length < MOST_COPIES ? ROOM / length : MOST_COPIES;
    for (size_t i = 0; i < many; i++)
        memcpy(copies + i * length, s->image.bytes, length);
    double start = nanoseconds();
    for (size_t i = 0; i < many; i++)
        call(s, what, copies + i * length);
    return (nanoseconds() - start) / (double)many;
}

static int compare(const void *a, const void *b)
{
    double x = *(const double *)a, y = *(const double *)b;
    return (x > y) - (x < y);
}

static double median(double *values, uint32_t count)
{
    qsort(values, count, sizeof values[0], compare);
    return values[count / 2];
}

/* The median ratio of two rows of times, and the ratios between which half of them lie. */
static void print_ratio(const char *name, const double *of, const double *to, uint32_t runs)
{
    static double ratio[MOST_RUNS];
    for (uint32_t i = 0; i < runs; i++)
        ratio[i] = of[i] / to[i];
    double middle = median(ratio, runs);
    printf("\t%s=%.3f\t%s-half=%.3f-%.3f", name, middle, name, ratio[runs / 4], ratio[runs * 3 / 4]);
}

static void print_situation(const struct situation *s, uint32_t number)
{
    printf("%" PRIu32 "\t%" PRIu32 "\t%" PRIu32 "\t%s\t%s", s->image.size, s->image.units, number, call_names[s->call], s->name);
}

static void measure(const struct situation *s, uint32_t number, uint32_t runs)
{
    static double times[WHATS][MOST_RUNS];
    for (uint32_t i = 0; i < runs; i++)
        for (uint32_t what = 0; what < WHATS; what++)
            times[what][i] = time_of(s, (enum what)what);
    print_situation(s, number);
    print_ratio("second", times[STORE], times[SECOND], runs);
    print_ratio("judge", times[STORE], times[JUDGE], runs);
    printf("\tstore-us=%.2f\tsecond-us=%.2f\tjudge-us=%.2f\n", median(times[STORE], runs) / 1e3, median(times[SECOND], runs) / 1e3,
           median(times[JUDGE], runs) / 1e3);
    fflush(stdout);
}

static int measure_all(uint32_t runs)
{
    static const struct {
        uint32_t size, units;
    } shapes[] = { { 4096, 16 }, { 1024, 64 }, { 512, 3 } };
    for (size_t k = 0; k < sizeof shapes / sizeof shapes[0]; k++) {
        uint32_t many = situations_make(situations, shapes[k].size, shapes[k].units);
        for (uint32_t i = 0; i < many; i++)
            measure(&situations[i], i, runs);
    }
    return EXIT_SUCCESS;
}

static int save(const char *size, const char *units, const char *file)
{
    uint32_t many = situations_make(situations, (uint32_t)atoi(size), (uint32_t)atoi(units));
    FILE *out = fopen(file, "wb");
    if (out == NULL || fwrite(situations, sizeof situations[0], many, out) != many || fclose(out) != 0)
        return 2;
    for (uint32_t i = 0; i < many; i++) {
        print_situation(&situations[i], i);
        putchar('\n');
    }
    return EXIT_SUCCESS;
}

static int call_once(const char *file, const char *number, int what)
{
    FILE *in = fopen(file, "rb");
    if (in == NULL || fseek(in, atol(number) * (long)sizeof situations[0], SEEK_SET) != 0 ||
        fread(situations, sizeof situations[0], 1, in) != 1)
        return 2;
    if (what < STORE || what > EMPTY)
        return 2;
    call(&situations[0], (enum what)what, situations[0].image.bytes);
    return EXIT_SUCCESS;
}

int main(int argc, char **argv)
{
    if (argc == 5 && strcmp(argv[1], "save") == 0)
        return save(argv[2], argv[3], argv[4]);
    if (argc == 5 && strcmp(argv[1], "count") == 0)
        return call_once(argv[2], argv[3], atoi(argv[4]));
    int runs = argc == 2 ? atoi(argv[1]) : 0;
    if (runs > 0 && runs <= MOST_RUNS)
        return measure_all((uint32_t)runs);
    fputs("usage: times RUNS, times save SIZE UNITS FILE, or times count FILE NUMBER 0|1|2|3|4\n", stderr);
    return 2;
}
