#include "calls.h"

#include <string.h>

#include "random.h"

uint32_t random_units(uint32_t unit_size, uint32_t three, uint32_t few)
{
    uint32_t most = most_units(unit_size);
    if (random_chance(three))
        return 3;
    if (random_chance(few))
        return random_between(3, 6);
    return random_chance(30) ? most : random_between(3, most);
}

static uint32_t random_length(void)
{
    uint32_t turn = random_below(100);
    if (turn < 10)
        return 0;
    if (turn < 50)
        return random_between(1, 8);
    if (turn < 70)
        return random_between(9, 64);
    if (turn < 94)
        return random_between(0, MAX_CONTENT);
    return turn < 98 ? MAX_CONTENT : random_between(MAX_CONTENT + 1, MAX_GIVEN);
}

/* Zeros, erased words, any bytes, or any bytes between erased words. */
static uint8_t random_byte(uint32_t style, uint32_t i)
{
    switch (style) {
    case 0: return 0;
    case 1: return 0xFF;
    case 2: return i / 2 % 3 == 0 ? 0xFF : (uint8_t)random_below(256);
    default: return (uint8_t)random_below(256);
    }
}

static void fill_content(struct call *c, uint32_t style)
{
    for (uint32_t i = 0; i < c->length; i++)
        c->content[i] = random_byte(style, i);
}

void random_content(struct call *c)
{
    uint32_t style = random_below(8);
    c->length = random_length();
    fill_content(c, style);
}

void random_content_of(struct call *c, uint32_t length)
{
    c->length = length;
    fill_content(c, random_below(8));
}

static uint32_t random_file(void)
{
    uint32_t turn = random_below(10);
    if (turn < 7)
        return random_below(MAX_FILE + 1);
    return turn < 9 ? random_between(MAX_FILE, MAX_FILE + 2) : UINT32_MAX - random_below(2);
}

void random_call(struct call *c, uint32_t units)
{
    memset(c, 0, sizeof *c);
    c->kind = (enum call_kind)random_below(CALL_KINDS);
    c->rule = random_chance(50) ? TIGHTEST : LOWEST;
    c->file = random_file();
    c->at.unit = random_chance(90) ? random_below(units + 1) : UINT32_MAX;
    c->at.position = random_chance(90) ? random_below(12) : UINT32_MAX - random_below(600);
    if (c->kind == CALL_WRITE)
        random_content(c);
}
