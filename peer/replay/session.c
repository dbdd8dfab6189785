#include "session.h"

#include <inttypes.h>
#include <stdio.h>

struct session now;

struct flash flash_now(void)
{
    return (struct flash){ now.image, now.length, now.unit_size, now.units };
}

uint32_t image_hash(void)
{
    uint64_t h = 0;
    for (uint32_t i = 0; i < now.length; i++)
        h = (h * 257 + now.image[i] + 1) % UINT64_C(4294967291);
    return (uint32_t)h;
}

void print_result(struct answer a)
{
    printf("number=%" PRIu32 " steps=%" PRIu32 " at=%" PRIu32 ":%" PRIu32 " file=%" PRIu32 " start=%" PRIu32 " length=%" PRIu32 " content=",
           a.number, a.steps, a.at.unit, a.at.position, a.file, a.start, a.length);
    for (uint32_t i = 0; i < a.length; i++)
        printf("%02x", now.image[a.start + i]);
    printf("%s image=%" PRIu32 " from=%d", a.length == 0 ? "-" : "", image_hash(), a.from);
}
