#include "steps.h"

#include <stdio.h>
#include <string.h>

#include "layout.h"

bool step_reach(const struct flash *before, const struct call *c, uint32_t made, struct flash *after, us_report *r)
{
    flash_copy(after, before);
    *r = flash_call(after, c, made);
    return r->number == US_STOPPED;
}

bool step_between(const struct flash *before, const struct flash *after, struct step *s)
{
    size_t first = 0, last = 0, differ = 0;
    for (size_t i = 0; i < after->length; i++)
        if (before->bytes[i] != after->bytes[i]) {
            first = differ == 0 ? i : first;
            last = i;
            differ++;
        }
    *s = (struct step){ false, first / 2 * 2, 2 };
    if (differ == 0)
        return false;
    if (first / 2 == last / 2 && (before->bytes[first] & after->bytes[first]) == after->bytes[first])
        return true;
    *s = (struct step){ true, first / after->size * after->size, after->size };
    for (size_t i = s->at; i < s->at + s->length; i++)
        if (after->bytes[i] != 0xFF)
            return false;
    return last < s->at + s->length;
}

static void descriptor_word(const struct unit *u, uint32_t offset, uint16_t value, const char *where, char words[120])
{
    char what[24];
    uint32_t position = (offset - HEADER_BYTES) / DESCRIPTOR_BYTES;
    struct descriptor d = layout_descriptor(u, position);
    tag_in_words(d.tag, what);
    switch ((offset - HEADER_BYTES) % DESCRIPTOR_BYTES) {
    case 0: snprintf(words, 120, "%s, descriptor %u (%s) is %s", where, (unsigned)position, what, kind_in_words(&d)); break;
    case 2: snprintf(words, 120, "%s, descriptor %u: its sector is at %u", where, (unsigned)position, (unsigned)value); break;
    case 4: snprintf(words, 120, "%s, descriptor %u: %u bytes", where, (unsigned)position, (unsigned)value); break;
    default: snprintf(words, 120, "%s, descriptor %u: %s", where, (unsigned)position, what);
    }
}

static int shown(uint8_t byte)
{
    return byte >= 0x20 && byte < 0x7F ? byte : '.';
}

void step_in_words(const struct flash *after, const struct step *s, char words[120])
{
    struct unit u;
    char where[24];
    size_t start = s->at / after->size * after->size;
    uint32_t offset = (uint32_t)(s->at - start);
    const uint8_t *at = after->bytes + s->at;
    layout_unit(&u, after->bytes + start, after->size);
    snprintf(where, sizeof where, "unit %u", (unsigned)(start / after->size));
    if (s->is_erase)
        snprintf(words, 120, "%s is erased", where);
    else if (offset == 0)
        snprintf(words, 120, "%s has logical number %u", where, (unsigned)layout_word(at));
    else if (offset == 2)
        snprintf(words, 120, "%s is %s", where, state_in_words(layout_word(at)));
    else if (offset >= HEADER_BYTES && offset < HEADER_BYTES + DESCRIPTOR_BYTES * u.n)
        descriptor_word(&u, offset, layout_word(at), where, words);
    else
        snprintf(words, 120, "%s, bytes %u and %u: '%c%c'", where, (unsigned)offset, (unsigned)offset + 1, shown(at[0]), shown(at[1]));
}
