#include "layout.h"

#include <stdio.h>

uint16_t layout_word(const uint8_t *at)
{
    return (uint16_t)(at[0] | at[1] << 8);
}

static enum kind kind_of(const struct descriptor *d)
{
    switch (d->flags) {
    case 0xFFFF:
        if (d->tag != ERASED_WORD)
            return TORN;
        return d->offset == ERASED_WORD && d->length == ERASED_WORD ? EMPTY : UNLISTED;
    case 0xFFFE: return ALLOCATED;
    case 0xFFFC: return PENDING;
    case 0xFFF8: return CURRENT;
    case 0xFFF0: return OLD;
    case 0x0000: return VOID;
    default: return UNLISTED;
    }
}

struct descriptor layout_descriptor(const struct unit *u, uint32_t position)
{
    const uint8_t *at = u->bytes + HEADER_BYTES + DESCRIPTOR_BYTES * position;
    struct descriptor d = { layout_word(at), layout_word(at + 2), layout_word(at + 4), layout_word(at + 6), EMPTY };
    d.kind = kind_of(&d);
    return d;
}

static bool has_sector(enum kind kind)
{
    return kind == ALLOCATED || kind == PENDING || kind == CURRENT || kind == OLD;
}

void layout_unit(struct unit *u, const uint8_t *bytes, uint32_t size)
{
    *u = (struct unit){ bytes, size, layout_word(bytes), layout_word(bytes + 2), true, 0, size };
    for (uint32_t i = 0; i < size; i++)
        u->is_erased = u->is_erased && bytes[i] == 0xFF;
    for (uint32_t p = 0; HEADER_BYTES + DESCRIPTOR_BYTES * (p + 1) <= u->low; p++) {
        struct descriptor d = layout_descriptor(u, p);
        if (d.kind != EMPTY)
            u->n = p + 1;
        if (has_sector(d.kind) && d.offset < u->low)
            u->low = d.offset;
    }
    if (u->low < HEADER_BYTES + DESCRIPTOR_BYTES * u->n)
        u->low = HEADER_BYTES + DESCRIPTOR_BYTES * u->n;
}

bool layout_sector(const struct unit *u, const struct descriptor *d, uint32_t *size)
{
    *size = d->length + d->length % 2u;
    return has_sector(d->kind) && d->offset >= u->low && d->offset + *size <= u->size;
}

const char *kind_name(enum kind kind)
{
    static const char *const names[] = { "empty", "torn", "allocated", "pending", "current", "old", "void", "of no listed kind" };
    return names[kind];
}

const char *kind_in_words(const struct descriptor *d)
{
    if (d->tag == TAG_TRANSACTION && d->kind == PENDING)
        return "open";
    return d->tag == TAG_TRANSACTION && d->kind == CURRENT ? "committed" : kind_name(d->kind);
}

const char *state_in_words(uint16_t state)
{
    switch (state) {
    case STATE_RECEIVING: return "receiving";
    case STATE_LIVE: return "live";
    case STATE_RETIRED: return "retired";
    default: return "no state";
    }
}

void tag_in_words(uint16_t tag, char words[24])
{
    if (tag == TAG_TRANSACTION)
        snprintf(words, 24, "transaction");
    else if ((tag & 0xFF00) == TAG_DATA)
        snprintf(words, 24, "file %d", tag & 0xFF);
    else if ((tag & 0xFF00) == TAG_DELETE_MARK)
        snprintf(words, 24, "deletes file %d", tag & 0xFF);
    else if (tag == ERASED_WORD)
        snprintf(words, 24, "no tag yet");
    else
        snprintf(words, 24, "tag %04X", tag);
}
