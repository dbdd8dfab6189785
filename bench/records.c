#include "records.h"

#include <inttypes.h>
#include <stdlib.h>

static _Noreturn void fail(const char *what)
{
    fprintf(stderr, "%s\n", what);
    exit(2);
}

static uint32_t number_at(const uint8_t *bytes)
{
    return bytes[0] | (uint32_t)bytes[1] << 8 | (uint32_t)bytes[2] << 16 | (uint32_t)bytes[3] << 24;
}

bool record_read(struct record *r, FILE *in)
{
    uint8_t head[12];
    size_t got = fread(head, 1, sizeof head, in);
    if (got == 0 && feof(in))
        return false;
    if (got != sizeof head)
        fail("a record breaks off in its numbers");
    r->unit_size = number_at(head);
    r->units = number_at(head + 4);
    r->length = number_at(head + 8);
    /* Exactly as long as the image, so that a look beyond it is outside the block. */
    free(r->image);
    r->image = malloc(r->length > 0 ? r->length : 1);
    if (r->image == NULL)
        fail("no memory for a record");
    if (fread(r->image, 1, r->length, in) != r->length)
        fail("a record breaks off in its image");
    return true;
}

FILE *records_open(const char *path)
{
    FILE *in = fopen(path, "rb");
    if (in == NULL) {
        perror(path);
        exit(2);
    }
    return in;
}

void record_script(const struct record *r, const char *last)
{
    printf("new %" PRIu32 " %" PRIu32 "\nsize %zu\n", r->unit_size, r->units, r->length);
    for (size_t i = 0; i < r->length; i++)
        if (r->image[i] != 0xFF)
            printf("put %zu %d\n", i, r->image[i]);
    puts(last);
}
