/* bench-listings FILE DIR: each record of the file as an input of the listing program, in DIR under its number; and on standard
   output a replay script that has the second program list each. */
#include <inttypes.h>
#include <stdio.h>
#include <stdlib.h>

#include "records.h"

static _Noreturn void fail(const char *path)
{
    perror(path);
    exit(2);
}

static void write_input(const struct record *r, const char *path)
{
    FILE *out = fopen(path, "wb");
    if (out == NULL)
        fail(path);
    fprintf(out, "unit=%" PRIu32 "\nunits=%" PRIu32 "\n", r->unit_size, r->units);
    fwrite(r->image, 1, r->length, out);
    if (ferror(out) || fclose(out) != 0)
        fail(path);
}

int main(int argc, char **argv)
{
    struct record r = { 0 };
    char path[4096];
    if (argc != 3) {
        fputs("usage: bench-listings FILE DIR\n", stderr);
        return 2;
    }
    FILE *in = records_open(argv[1]);
    for (unsigned long i = 1; record_read(&r, in); i++) {
        snprintf(path, sizeof path, "%s/%lu", argv[2], i);
        write_input(&r, path);
        record_script(&r, "list");
    }
    free(r.image);
    fclose(in);
    return fflush(stdout) == 0 ? EXIT_SUCCESS : 2;
}
