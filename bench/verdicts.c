/* bench-verdicts FILE: the judge's verdict on each record of the file, one to a line.
   bench-verdicts FILE NUMBER: one record as a replay script, and no verdict. */
#include <inttypes.h>
#include <stdio.h>
#include <stdlib.h>

#include "judge.h"
#include "records.h"

static void print_verdict(uint32_t number)
{
    switch (number) {
    case SETTLED: puts("settled"); break;
    case BAD_GEOMETRY: puts("bad-geometry"); break;
    case BAD_IMAGE: puts("bad-image"); break;
    case UNSETTLED: puts("unsettled"); break;
    default: printf("number-%" PRIu32 "\n", number); break;
    }
}

int main(int argc, char **argv)
{
    struct record r = { 0 };
    if (argc != 2 && argc != 3) {
        fputs("usage: bench-verdicts FILE [NUMBER]\n", stderr);
        return 2;
    }
    FILE *in = records_open(argv[1]);
    unsigned long only = argc == 3 ? strtoul(argv[2], NULL, 10) : 0;
    for (unsigned long i = 1; record_read(&r, in); i++) {
        if (only == 0)
            print_verdict(us_first(r.image, r.length, r.unit_size, r.units));
        else if (only == i)
            record_script(&r, "judge");
    }
    free(r.image);
    fclose(in);
    return fflush(stdout) == 0 ? EXIT_SUCCESS : 2;
}
