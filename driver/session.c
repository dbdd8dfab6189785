#include "session.h"

#include <inttypes.h>
#include <stdio.h>
#include <string.h>

struct session now;

uint8_t *image(void)
{
    return now.bytes + GUARD;
}

void set_guards(void)
{
    memset(now.bytes, GUARD_BYTE, GUARD);
    memset(image() + now.length, GUARD_BYTE, GUARD);
}

static bool guards_stand(void)
{
    for (size_t i = 0; i < GUARD; i++)
        if (now.bytes[i] != GUARD_BYTE || image()[now.length + i] != GUARD_BYTE)
            return false;
    return true;
}

/* Without a division for each byte, which some processors do slowly: 2 to the 32nd is 5 more than the modulus. */
uint32_t hash(void)
{
    const uint64_t modulus = 4294967291;
    uint64_t h = 0;
    for (size_t i = 0; i < now.length; i++) {
        h = h * 257 + image()[i] + 1;
        h = (h & UINT32_MAX) + 5 * (h >> 32);
    }
    return (uint32_t)(h % modulus);
}

static void print_content(const us_report *r)
{
    if (r->length == 0)
        putchar('-');
    else if (r->start > now.length || r->length > now.length - r->start)
        fputs("outside-the-image", stdout);
    else
        for (size_t i = 0; i < r->length; i++)
            printf("%02x", image()[r->start + i]);
}

const char *guards_said(void)
{
    return guards_stand() ? "" : " bytes-beside-the-image-changed";
}

void print_report(us_report r)
{
    printf("number=%" PRIu32 " steps=%" PRIu32 " at=%zu:%zu file=%zu start=%zu length=%zu content=", r.number, r.steps, r.unit, r.position,
           r.file, r.start, r.length);
    print_content(&r);
    printf(" image=%" PRIu32 " from=%" PRIu32 "%s", hash(), r.from, guards_said());
}
