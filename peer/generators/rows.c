#include "rows.h"

#include <inttypes.h>

const char *const size_name[4] = { "512", "1024", "2048", "4096" };
const char *const units_name[4] = { "3", "4-8", "9-32", "33-64" };

void print_row(FILE *out, const char *title, const char *const *names, const uint64_t *counts, uint32_t count)
{
    fputs(title, out);
    for (uint32_t i = 0; i < count; i++)
        fprintf(out, " %s=%" PRIu64, names[i], counts[i]);
    putc('\n', out);
}

void print_numbered(FILE *out, const char *title, const uint64_t *counts, uint32_t count)
{
    fputs(title, out);
    for (uint32_t i = 0; i < count; i++)
        fprintf(out, " %" PRIu32 "=%" PRIu64, i, counts[i]);
    putc('\n', out);
}
