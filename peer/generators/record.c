#include "record.h"

#include <stdlib.h>

static _Noreturn void fail(const char *what)
{
    perror(what);
    exit(2);
}

FILE *record_open(const char *path)
{
    FILE *out = fopen(path, "wb");
    if (out == NULL)
        fail(path);
    return out;
}

static void put_number(FILE *out, uint32_t number)
{
    for (uint32_t i = 0; i < 4; i++)
        putc((int)(number >> 8 * i & 0xFF), out);
}

void record_write(FILE *out, const struct flash *f)
{
    size_t held = f->length < MAX_IMAGE ? f->length : MAX_IMAGE;
    put_number(out, f->unit_size);
    put_number(out, f->units);
    put_number(out, (uint32_t)f->length);
    fwrite(f->image, 1, held, out);
    for (size_t i = held; i < f->length; i++)
        putc(0xFF, out);
    if (ferror(out))
        fail("writing the records");
}

void record_close(FILE *out)
{
    if (fclose(out) != 0)
        fail("writing the records");
}
