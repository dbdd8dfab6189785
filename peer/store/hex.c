#include "hex.h"

#include <stdbool.h>
#include <stdio.h>
#include <string.h>

static bool right_geometry(size_t length, uint32_t unit_size, uint32_t units)
{
    bool size = unit_size == 512 || unit_size == 1024 || unit_size == 2048 || unit_size == 4096;
    return size && units >= 3 && units <= 64 && units * unit_size <= 65536 && length == units * unit_size;
}

/* A file being read: what is left of it, and what it has named so far. */
struct file {
    const uint8_t *at, *end;
    int16_t byte[65536]; /* -1 where no record has named it */
    size_t size;
};

/* A record as the line gives it. */
struct record {
    uint8_t count, type, data[255];
    uint32_t address;
    unsigned total;
};

static int nibble(uint8_t c)
{
    static const char digits[] = "0123456789abcdefABCDEF";
    const char *found = c == 0 ? NULL : strchr(digits, c);
    if (!found)
        return -1;
    int place = (int)(found - digits);
    return place < 16 ? place : place - 6;
}

/* Takes the next line off; its end is LF, CR LF or the end of the file. */
static size_t next_line(struct file *f, const uint8_t **line)
{
    *line = f->at;
    const uint8_t *feed = memchr(f->at, '\n', (size_t)(f->end - f->at));
    if (!feed) {
        f->at = f->end;
        return (size_t)(f->end - *line);
    }
    f->at = feed + 1;
    size_t length = (size_t)(feed - *line);
    if (length > 0 && (*line)[length - 1] == '\r')
        length--;
    return length;
}

/* Whether the line is a record, whatever its checksum. */
static bool decode(const uint8_t *line, size_t length, struct record *r)
{
    uint8_t bytes[260];
    size_t many = 0;
    if (length == 0 || line[0] != ':' || length % 2 == 0 || length > 521)
        return false;
    r->total = 0;
    for (size_t i = 1; i < length; i += 2) {
        int high = nibble(line[i]), low = nibble(line[i + 1]);
        if (high < 0 || low < 0)
            return false;
        bytes[many] = (uint8_t)(high << 4 | low);
        r->total += bytes[many++];
    }
    if (many < 5 || many != 5u + bytes[0])
        return false;
    r->count = bytes[0];
    r->address = (uint32_t)bytes[1] << 8 | bytes[2];
    r->type = bytes[3];
    memcpy(r->data, bytes + 4, r->count);
    return true;
}

static int take(struct file *f, const struct record *r)
{
    for (unsigned i = 0; i < r->count; i++)
        if (r->address + i >= f->size)
            return 33;
    for (unsigned i = 0; i < r->count; i++)
        if (f->byte[r->address + i] >= 0)
            return 34;
    for (unsigned i = 0; i < r->count; i++)
        f->byte[r->address + i] = r->data[i];
    return 0;
}

int hex_read(const uint8_t *text, size_t length, uint32_t unit_size, uint32_t units, uint8_t *image, size_t image_length)
{
    static struct file f;
    static struct record r;
    if (!right_geometry(image_length, unit_size, units))
        return 2;
    f.at = text;
    f.end = text + length;
    f.size = image_length;
    for (size_t i = 0; i < f.size; i++)
        f.byte[i] = -1;
    for (bool ended = false; !ended;) {
        const uint8_t *line;
        if (f.at == f.end)
            return 35;
        size_t many = next_line(&f, &line);
        if (!decode(line, many, &r) || (r.type == 1 && r.count > 0))
            return 30;
        if (r.total % 256 != 0)
            return 31;
        if (r.type > 1)
            return 32;
        if (r.type == 0) {
            int number = take(&f, &r);
            if (number)
                return number;
        }
        ended = r.type == 1;
    }
    if (f.at != f.end)
        return 30;
    for (size_t i = 0; i < f.size; i++)
        image[i] = f.byte[i] < 0 ? 0xFF : (uint8_t)f.byte[i];
    return 0;
}

size_t hex_write(const uint8_t *image, size_t image_length, uint32_t unit_size, uint32_t units, char *text, size_t room)
{
    char line[64];
    size_t at = 0;
    if (!right_geometry(image_length, unit_size, units) || room < image_length / 16 * 44 + 12)
        return 0;
    for (uint32_t row = 0; row < image_length; row += 16) {
        bool blank = true;
        unsigned total = 16 + (row >> 8) + (row & 255);
        int n = snprintf(line, sizeof line, ":10%04X00", (unsigned)row);
        for (unsigned i = 0; i < 16; i++) {
            blank = blank && image[row + i] == 0xFF;
            total += image[row + i];
            n += snprintf(line + n, sizeof line - (size_t)n, "%02X", image[row + i]);
        }
        n += snprintf(line + n, sizeof line - (size_t)n, "%02X\n", -total & 255u);
        if (!blank) {
            memcpy(text + at, line, (size_t)n);
            at += (size_t)n;
        }
    }
    memcpy(text + at, ":00000001FF\n", 12);
    return at + 12;
}
