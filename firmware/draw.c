#include "draw.h"

#include <stdio.h>
#include <string.h>

#include "svg.h"

static const double left = 150, top = 64, bar = 44, row = 66, right = 150, legend = 44;

/* What is drawn, and how wide a byte is. */
static struct {
    struct unit unit[MOST_UNITS];
    uint32_t units;
    uint32_t size;
    double byte;
} now;

static double at(uint32_t offset)
{
    return left + offset * now.byte;
}

static double top_of(uint32_t number)
{
    return top + number * row;
}

/* An open transaction has a colour of its own; anything else is coloured by its kind. */
static int filling_of(const struct descriptor *d)
{
    return d->tag == TAG_TRANSACTION && (d->kind == PENDING || d->kind == CURRENT) ? (int)FILL_TRANSACTION : (int)d->kind;
}

static void draw_descriptor(const struct unit *u, uint32_t position, double y)
{
    char tag[24], class[40];
    struct descriptor d = layout_descriptor(u, position);
    int filling = filling_of(&d);
    double x = at(HEADER_BYTES + DESCRIPTOR_BYTES * position), width = DESCRIPTOR_BYTES * now.byte;
    tag_in_words(d.tag, tag);
    snprintf(class, sizeof class, "descriptor %s", d.kind == UNLISTED ? "unlisted" : svg_name((int)d.kind));
    svg_box(x, y, width, bar, filling, class, "position %u: %s, %s, offset %u, %u bytes", (unsigned)position, tag, kind_in_words(&d),
            (unsigned)d.offset, (unsigned)d.length);
    if (width < 12 || d.kind == EMPTY)
        return;
    enum text_style style = svg_is_dark(filling) ? ON_DARK : SMALL;
    svg_text(x + width / 2, y + 14, true, style, "%u", (unsigned)position);
    if (d.tag == TAG_TRANSACTION)
        svg_text(x + width / 2, y + 36, true, style, "T");
    else if (d.kind != VOID && d.tag != ERASED_WORD)
        svg_text(x + width / 2, y + 36, true, style, "%s%d", (d.tag & 0xFF00) == TAG_DELETE_MARK ? "-" : "", d.tag & 0xFF);
}

/* Bytes at the sector's end that are FF still, where the sector is being filled. */
static uint32_t unwritten(const struct unit *u, const struct descriptor *d, uint32_t size)
{
    uint32_t many = 0;
    if (d->kind != ALLOCATED && u->state != STATE_RECEIVING)
        return 0;
    while (many < size && u->bytes[d->offset + size - 1 - many] == 0xFF)
        many++;
    return many / 2 * 2;
}

static void draw_sector(const struct unit *u, uint32_t position, double y)
{
    char tag[24], class[40];
    uint32_t size;
    struct descriptor d = layout_descriptor(u, position);
    if (!layout_sector(u, &d, &size) || size == 0)
        return;
    int filling = filling_of(&d);
    double x = at(d.offset), width = size * now.byte;
    uint32_t left_out = unwritten(u, &d, size);
    tag_in_words(d.tag, tag);
    snprintf(class, sizeof class, "sector %s", svg_name((int)d.kind));
    svg_box(x, y, width, bar, filling, class, "%s, %s, %u bytes at %u, position %u", tag, kind_in_words(&d), (unsigned)d.length,
            (unsigned)d.offset, (unsigned)position);
    if (left_out > 0)
        svg_box(at(d.offset + size - left_out), y, left_out * now.byte, bar, FILL_UNWRITTEN, "unwritten", "%u bytes not yet written",
                (unsigned)left_out);
    enum text_style style = svg_is_dark(filling) ? ON_DARK : filling == OLD ? STRUCK : SMALL;
    width -= left_out * now.byte;
    if (width < 34)
        return;
    svg_text(x + width / 2, y + 19, true, style, "%s", tag);
    if (width >= 48)
        svg_text(x + width / 2, y + 34, true, style, "%u bytes", (unsigned)d.length);
}

static void draw_inside(const struct unit *u, double y)
{
    uint32_t end = HEADER_BYTES + DESCRIPTOR_BYTES * u->n;
    svg_box(left, y, now.size * now.byte, bar, FILL_OTHER, "other", "bytes of no descriptor");
    svg_box(left, y, HEADER_BYTES * now.byte, bar, FILL_HEADER, "header", "header: logical number %04X, state %04X", u->logical, u->state);
    for (uint32_t p = 0; p < u->n; p++)
        draw_descriptor(u, p, y);
    if (u->low > end) {
        svg_box(at(end), y, (u->low - end) * now.byte, bar, FILL_GAP, "gap", "gap: %u bytes at %u", (unsigned)(u->low - end),
                (unsigned)end);
        if ((u->low - end) * now.byte >= 50)
            svg_text((at(end) + at(u->low)) / 2, y + 26, true, SMALL, "gap, %u bytes", (unsigned)(u->low - end));
    }
    for (uint32_t p = 0; p < u->n; p++)
        draw_sector(u, p, y);
}

/* The unit that is being copied into this one, or has been; now.units where there is none. */
static uint32_t copied_from(uint32_t copy)
{
    const struct unit *c = &now.unit[copy];
    for (uint32_t i = 0; i < now.units; i++) {
        const struct unit *u = &now.unit[i];
        if (i == copy || u->logical != c->logical || c->logical == ERASED_WORD)
            continue;
        if ((c->state == STATE_RECEIVING && (u->state == STATE_LIVE || u->state == STATE_RETIRED)) ||
            (c->state == STATE_LIVE && u->state == STATE_RETIRED))
            return i;
    }
    return now.units;
}

static void draw_unit(uint32_t number)
{
    const struct unit *u = &now.unit[number];
    double y = top_of(number), width = now.size * now.byte;
    uint32_t from = copied_from(number);
    printf("<g class='unit'>\n");
    svg_text(12, y + 18, false, BOLD, "unit %u", (unsigned)number);
    if (u->is_erased) {
        svg_text(12, y + 35, false, PLAIN, "spare");
        svg_box(left, y, width, bar, FILL_SPARE, "spare", "unit %u: spare, every byte FF", (unsigned)number);
        svg_text(left + width / 2, y + 26, true, PLAIN, "spare: erased");
    } else {
        if (u->logical == ERASED_WORD || u->logical >= MOST_UNITS)
            svg_text(12, y + 35, false, PLAIN, "no logical number");
        else
            svg_text(12, y + 35, false, PLAIN, "logical %u, %s", (unsigned)u->logical, state_in_words(u->state));
        draw_inside(u, y);
    }
    svg_outline(left, y, width, bar, from < now.units);
    if (from < now.units) {
        svg_arrow(left + width + 6, top_of(from) + bar / 2, y + bar / 2);
        svg_text(left + width + 36, (top_of(from) + y + bar) / 2 + 4, false, PLAIN,
                 now.unit[from].state == STATE_LIVE ? "copy being made" : "its copy");
    }
    printf("</g>\n");
}

/* From left to right, in as many lines as it takes. */
static void draw_legend(double y, double width)
{
    static const int shown[] = { FILL_HEADER, CURRENT, PENDING, FILL_TRANSACTION, OLD,        ALLOCATED,
                                 TORN,        VOID,    EMPTY,   FILL_GAP,         FILL_SPARE, FILL_UNWRITTEN };
    double x = 12;
    for (size_t i = 0; i < sizeof shown / sizeof shown[0]; i++) {
        const char *name = svg_name(shown[i]);
        double each = 50 + 6.4 * (double)strlen(name);
        if (x + each > width) {
            x = 12;
            y += 24;
        }
        svg_box(x, y, 28, 16, shown[i], "legend", "%s", name);
        svg_text(x + 34, y + 12, false, PLAIN, "%s", name);
        x += each;
    }
}

void draw_image(const uint8_t *image, uint32_t size, uint32_t units, const char *caption)
{
    double width = size <= 1024 ? 1024 : (double)size / 2;
    now.units = units;
    now.size = size;
    now.byte = width / size;
    for (uint32_t i = 0; i < units; i++)
        layout_unit(&now.unit[i], image + (size_t)i * size, size);
    svg_begin(left + width + right, top + units * row + legend);
    svg_text(12, 26, false, HEADING, "%s", caption[0] != 0 ? caption : "An image of the store");
    svg_text(12, 46, false, PLAIN,
             "%u units of %u bytes; header, then descriptors (position above, file below, T a transaction, - a delete mark),"
             " gap, sectors",
             (unsigned)units, (unsigned)size);
    for (uint32_t i = 0; i < units; i++)
        draw_unit(i);
    draw_legend(top + units * row, left + width + right);
    svg_end();
}
