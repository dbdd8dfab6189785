#include "known.h"

#include "random.h"

/* A home, with a position below n where it has one. */
struct spot {
    const struct store *store;
    uint32_t start;
    struct array array;
    uint32_t position;
};

static uint32_t descriptor_at(const struct spot *s, uint32_t position)
{
    return s->start + HEADER_SIZE + DESCRIPTOR_SIZE * position;
}

static bool has_sector(const struct bench *b, uint32_t at, bool with_bytes)
{
    uint16_t flags = flash_word(&b->flash, at);
    return flags >= FLAGS_OLD && flags < ERASED && (!with_bytes || flash_word(&b->flash, at + AT_LENGTH) > 0);
}

static bool break_header(struct bench *b, const struct spot *s)
{
    b->image[s->start + random_between(4, 15)] = (uint8_t)random_below(255);
    return true;
}

static bool break_state(struct bench *b, const struct spot *s)
{
    bench_put_word(b, s->start + 2, (uint16_t)random_between(0xFF00, 0xFFFB));
    return true;
}

static bool break_number(struct bench *b, const struct spot *s)
{
    bench_put_word(b, s->start, (uint16_t)random_between(b->flash.units - 1, 0xFFFF));
    return true;
}

/* In a gap, a word where a descriptor's offset or length would stand is never torn or void. */
static bool break_gap(struct bench *b, const struct spot *s)
{
    uint32_t at = descriptor_at(s, s->array.n + random_below(3)) + random_between(AT_OFFSET, 5);
    if (at >= s->start + s->array.low)
        return false;
    b->image[at] = (uint8_t)random_below(255);
    return true;
}

static bool break_empty(struct bench *b, const struct spot *s)
{
    uint32_t at = descriptor_at(s, s->position);
    if (s->array.n == 0 || !flash_all_erased(&b->flash, at, DESCRIPTOR_SIZE))
        return false;
    b->image[at + random_between(AT_OFFSET, 5)] = (uint8_t)random_below(255);
    return true;
}

static bool break_sector(struct bench *b, const struct spot *s)
{
    uint32_t at = descriptor_at(s, s->position);
    if (s->array.n == 0 || !has_sector(b, at, false))
        return false;
    switch (random_below(5)) {
    case 0: b->image[at + AT_OFFSET] |= 1; break;
    case 1: bench_put_word(b, at + AT_LENGTH, (uint16_t)random_between(257, 0xFFFF)); break;
    case 2: bench_put_word(b, at + AT_TAG, (uint16_t)random_between(0x3001, 0xFFFF)); break;
    case 3: bench_put_word(b, at + AT_FLAGS, (uint16_t)random_between(1, 0xFFEF)); break;
    default: bench_put_word(b, at + AT_OFFSET, (uint16_t)random_below(HEADER_SIZE + 8)); break;
    }
    return true;
}

static bool break_overlap(struct bench *b, const struct spot *s)
{
    uint32_t at = descriptor_at(s, s->position);
    if (s->array.n == 0 || !has_sector(b, at, true))
        return false;
    for (uint32_t p = 0; p < s->array.n; p++) {
        uint32_t other = descriptor_at(s, p);
        if (p == s->position || !has_sector(b, other, true))
            continue;
        bench_put_word(b, at + AT_OFFSET, flash_word(&b->flash, other + AT_OFFSET));
        return true;
    }
    return false;
}

/* An old sector of a file that has a current one becomes current too. */
static bool break_current(struct bench *b, const struct spot *s)
{
    uint32_t at = descriptor_at(s, s->position);
    uint16_t tag = flash_word(&b->flash, at + AT_TAG);
    if (s->array.n == 0 || flash_word(&b->flash, at) != FLAGS_OLD || tag >> 8 != TAG_DATA >> 8 || s->store->current[tag & 0xFF].count == 0)
        return false;
    bench_put_word(b, at + AT_FLAGS, FLAGS_CURRENT);
    return true;
}

bool make_not_sound(struct bench *b)
{
    static bool (*const ways[])(struct bench *, const struct spot *) = { break_header, break_state,  break_number,  break_gap,
                                                                         break_empty,  break_sector, break_overlap, break_current };
    struct store s;
    if (judge(&b->flash, &s) == GROUP_NOT_SOUND || s.move.is)
        return false;
    const struct home *h = &s.home[random_below(b->flash.units - 1)];
    struct spot spot = { &s, flash_unit_start(&b->flash, h->unit), h->array, 0 };
    if (h->array.n > 0)
        spot.position = random_below(h->array.n);
    return ways[random_below(8)](b, &spot);
}
