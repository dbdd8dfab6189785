#include "hex_files.h"

#include <stdbool.h>
#include <stdio.h>
#include <string.h>

#include "../checks/random.h"

enum { MOST = 4200 };

struct record {
    uint32_t address;
    uint8_t count, type, data[255];
    int claimed;    /* the count that the line claims, or -1 */
    uint8_t wrong;  /* added to the checksum */
    uint8_t ending; /* 0 LF, 1 CR LF, 2 none, 3 CR, 4 LF LF, 5 a blank and LF */
    bool unstarted; /* no colon */
};

static struct record records[MOST];
static uint32_t many;

static struct record *add(uint32_t address, uint32_t count, uint32_t type)
{
    static struct record spare;
    struct record *r = many < MOST ? &records[many++] : &spare;
    memset(r, 0, sizeof *r);
    r->address = address & 0xFFFF;
    r->count = (uint8_t)count;
    r->type = (uint8_t)type;
    r->claimed = -1;
    for (uint32_t i = 0; i < count; i++)
        r->data[i] = random_chance(20) ? 0xFF : (uint8_t)random_below(256);
    return r;
}

/* Data records that name no byte twice: ascending with gaps, then mixed up. */
static void data_records(uint32_t size)
{
    uint32_t longest = random_chance(50) ? 16 : random_between(1, 255), at = 0, whole = random_chance(4);
    while (at < size && many < MOST - 8 && (whole || many < 12)) {
        uint32_t count = random_chance(60) ? longest : random_between(0, longest);
        if (!whole && random_chance(40))
            at += random_below(size / 4);
        if (at >= size)
            break;
        if (count > size - at)
            count = size - at;
        add(at, count, 0);
        at += count;
    }
    if (random_chance(10))
        add(random_below(65536), 0, 0);
    for (uint32_t i = 1; random_chance(50) && i < many; i++) {
        uint32_t j = random_below(i + 1);
        struct record kept = records[i];
        records[i] = records[j];
        records[j] = kept;
    }
}

/* Puts a record of a kind in at a random place. */
static struct record *insert(uint32_t address, uint32_t count, uint32_t type)
{
    struct record *last = add(address, count, type);
    if (many == 0 || last != &records[many - 1])
        return last;
    uint32_t to = random_below(many);
    struct record kept = records[to];
    records[to] = *last;
    if (to != many - 1)
        *last = kept;
    return &records[to];
}

/* One fault among the records. */
static void fault(uint32_t size)
{
    struct record *r = &records[random_below(many)];
    switch (random_below(16)) {
    case 0: r->wrong = (uint8_t)random_between(1, 255); break;
    case 1: r->type = (uint8_t)random_between(2, 5); break;
    case 2:
        r->type = (uint8_t)random_between(2, 255);
        r->wrong = (uint8_t)random_below(2);
        break;
    case 3: r->address = random_between(size - r->count, 65535) & 0xFFFF; break;
    case 4: insert(size - 1, random_between(2, 20), 0); break;
    case 5: insert(65535, random_between(1, 4), 0); break;
    case 6: insert(r->address, r->count, 0); break;
    case 7: insert(r->address + r->count - 1, 1, 0); break;
    case 8: *insert(0, 1, 0) = *r; break;
    case 9: r->claimed = (int)random_below(256); break;
    case 10: r->unstarted = true; break;
    case 11: r->ending = (uint8_t)random_between(2, 5); break;
    case 12: insert(0, random_between(1, 4), 1)->wrong = (uint8_t)random_below(2); break;
    case 13: insert(random_below(65536), 0, 1); break;
    case 14: many -= many > 0; break;
    default: insert(random_below(65536), random_between(0, 16), random_below(6))->wrong = (uint8_t)random_below(2); break;
    }
}

static uint8_t *digits(uint8_t *at, unsigned byte, unsigned lower)
{
    static const char two[2][17] = { "0123456789ABCDEF", "0123456789abcdef" };
    *at++ = (uint8_t)two[lower == 2 ? random_below(2) : lower][byte >> 4 & 15];
    *at++ = (uint8_t)two[lower == 2 ? random_below(2) : lower][byte & 15];
    return at;
}

static uint8_t *line(uint8_t *at, const struct record *r, unsigned lower, unsigned ends)
{
    static const char *const endings[] = { "\n", "\r\n", "", "\r", "\n\n", " \n" };
    unsigned count = r->claimed < 0 ? r->count : (unsigned)r->claimed;
    unsigned sum = count + (r->address >> 8) + (r->address & 255) + r->type;
    if (!r->unstarted)
        *at++ = ':';
    at = digits(at, count, lower);
    at = digits(at, r->address >> 8, lower);
    at = digits(at, r->address & 255, lower);
    at = digits(at, r->type, lower);
    for (unsigned i = 0; i < r->count; i++) {
        sum += r->data[i];
        at = digits(at, r->data[i], lower);
    }
    at = digits(at, -sum + r->wrong, lower);
    const char *end = endings[r->ending ? r->ending : ends == 2 ? random_below(2) : ends];
    size_t length = strlen(end);
    memcpy(at, end, length);
    return at + length;
}

/* One change of any character. */
static size_t scratch(uint8_t *text, size_t length)
{
    static const char any[] = "0123456789ABCDEFabcdefGg:\r\n \t/@`";
    size_t at = length ? random_below((uint32_t)length) : 0;
    uint8_t c = random_chance(80) ? (uint8_t)any[random_below(sizeof any - 1)] : (uint8_t)random_below(256);
    switch (random_below(4)) {
    case 0:
        if (length)
            text[at] = c;
        return length;
    case 1:
        memmove(text + at + 1, text + at, length - at);
        text[at] = c;
        return length + 1;
    case 2:
        if (!length)
            return 0;
        memmove(text + at, text + at + 1, length - at - 1);
        return length - 1;
    default: return at;
    }
}

size_t hex_file(uint8_t *text, uint32_t size)
{
    unsigned lower = random_below(3), ends = random_below(3);
    uint8_t *at = text;
    many = 0;
    data_records(size);
    if (!random_chance(5))
        add(random_chance(70) ? 0 : random_below(65536), 0, 1);
    uint32_t faults = random_chance(30) ? 0 : random_chance(60) ? 1 : 2;
    for (uint32_t i = 0; i < faults && many > 0; i++)
        fault(size);
    for (uint32_t i = 0; i < many; i++)
        at = line(at, &records[i], lower, ends);
    size_t length = (size_t)(at - text);
    if (length > 0 && random_chance(10) && text[length - 1] == '\n')
        length--;
    for (uint32_t turns = random_chance(15) ? random_between(1, 2) : 0; turns > 0; turns--)
        length = scratch(text, length);
    return length;
}

void hex_image(uint8_t *image, uint32_t size)
{
    uint32_t blank = random_below(101);
    for (uint32_t row = 0; row < size; row += 16) {
        bool whole = random_chance(blank);
        for (uint32_t i = 0; i < 16; i++)
            image[row + i] = whole || random_chance(30) ? 0xFF : (uint8_t)random_below(256);
    }
}
