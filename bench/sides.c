#include "sides.h"

#include <string.h>

void image_erase(struct image *i, uint32_t size, uint32_t units)
{
    i->size = size;
    i->units = units;
    i->length = (size_t)size * units;
    memset(i->bytes, 0xFF, sizeof i->bytes);
}

void image_copy(struct image *to, const struct image *from)
{
    to->size = from->size;
    to->units = from->units;
    to->length = from->length;
    memcpy(to->bytes, from->bytes, from->length);
}

uint32_t image_spare(const struct image *i)
{
    uint32_t u = 0;
    while (u + 1 < i->units && (i->bytes[u * i->size] & i->bytes[u * i->size + 1]) != 0xFF)
        u++;
    return u;
}
