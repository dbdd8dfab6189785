#include "bench.h"

#include <inttypes.h>
#include <stdio.h>
#include <string.h>

const char *const group_name[GROUPS] = { "not-sound",
                                         "settled",
                                         "torn",
                                         "allocated",
                                         "two-pending",
                                         "no-transaction",
                                         "two-pending-no-transaction",
                                         "committed",
                                         "moving-home-live",
                                         "moving-home-retired",
                                         "moving-copy-live" };

static uint32_t passed;
static uint32_t failed;

void check(bool ok, const char *what)
{
    if (ok) {
        passed++;
        return;
    }
    failed++;
    printf("FAILED %s\n", what);
}

uint32_t checks_passed(void)
{
    return passed;
}

uint32_t checks_failed(void)
{
    return failed;
}

void bench_erased(struct bench *b, uint32_t unit_size, uint32_t units)
{
    b->flash = (struct flash){ b->image, (size_t)unit_size * units, unit_size, units };
    memset(b->image, 0xFF, sizeof b->image);
}

void bench_formatted(struct bench *b, uint32_t unit_size, uint32_t units)
{
    bench_erased(b, unit_size, units);
    store_format(b->flash, PLENTY);
}

void bench_copy(struct bench *to, const struct bench *from)
{
    to->flash = from->flash;
    to->flash.image = to->image;
    memcpy(to->image, from->image, from->flash.length);
}

bool bench_same(const struct bench *a, const struct bench *b)
{
    return a->flash.length == b->flash.length && memcmp(a->image, b->image, a->flash.length) == 0;
}

void bench_put_word(struct bench *b, uint32_t address, uint16_t value)
{
    b->image[address] = (uint8_t)(value & 0xFF);
    b->image[address + 1] = (uint8_t)(value >> 8);
}

void bench_put_descriptor(struct bench *b, uint32_t unit, uint32_t position, struct descriptor d)
{
    uint32_t at = unit_descriptor_address(&b->flash, unit, position);
    bench_put_word(b, at + AT_FLAGS, d.flags);
    bench_put_word(b, at + AT_OFFSET, d.offset);
    bench_put_word(b, at + AT_LENGTH, d.length);
    bench_put_word(b, at + AT_TAG, d.tag);
}

uint32_t most_units(uint32_t unit_size)
{
    return MAX_IMAGE / unit_size < MAX_UNITS ? MAX_IMAGE / unit_size : MAX_UNITS;
}

uint32_t mount_bound(uint32_t unit_size, uint32_t units)
{
    return unit_size / 2 + 1 + (units - 1) * (unit_size - 16) / 8;
}

bool answer_is(struct answer a, uint32_t number, uint32_t steps, uint32_t unit, uint32_t position)
{
    return a.number == number && a.steps == steps && a.at.unit == unit && a.at.position == position && a.file == 0 && a.start == 0 &&
           a.length == 0 && a.from == NOT_SAID;
}

bool answer_refuses(struct answer a, uint32_t number)
{
    return answer_is(a, number, 0, 0, 0);
}

bool answer_absent(struct answer a, enum from from)
{
    bool says = a.from == from;
    a.from = NOT_SAID;
    return says && answer_refuses(a, ABSENT);
}

bool answer_content_is(const struct bench *b, struct answer a, const void *content, uint32_t length)
{
    return a.number == DONE && a.steps == 0 && a.length == length && a.start + length <= b->flash.length &&
           (length > 0 ? memcmp(b->image + a.start, content, length) == 0 : a.start == 0);
}

enum group bench_group(const struct bench *b)
{
    struct store s;
    return judge(&b->flash, &s);
}
