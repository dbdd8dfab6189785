#include <stdarg.h>
#include <stdio.h>
#include <stdlib.h>
#include <string.h>

#include "depot.h"

/* The lines of one file, read one after the other. */
struct lines {
    const char *at;
    const char *end;
};

static bool file_lines(const struct flash *f, uint32_t file, struct lines *l)
{
    size_t length;
    l->at = (const char *)flash_read(f, file, &length);
    if (l->at == NULL)
        return false;
    l->end = l->at + length;
    return true;
}

/* Takes the next line, which must be key=value, and copies its value, never more than a name has room for. */
static bool take_value(struct lines *l, const char *key, char value[LONGEST_NAME])
{
    size_t left = (size_t)(l->end - l->at);
    size_t skip = strlen(key) + 1;
    const char *stop = left == 0 ? NULL : memchr(l->at, '\n', left);
    if (stop == NULL || (size_t)(stop - l->at) < skip || memcmp(l->at, key, skip - 1) != 0 || l->at[skip - 1] != '=')
        return false;
    size_t length = (size_t)(stop - l->at) - skip;
    if (length == 0 || length >= LONGEST_NAME)
        return false;
    memcpy(value, l->at + skip, length);
    value[length] = 0;
    l->at = stop + 1;
    return true;
}

static bool take_number(struct lines *l, const char *key, uint32_t *number)
{
    char value[LONGEST_NAME];
    char *end;
    if (!take_value(l, key, value))
        return false;
    *number = (uint32_t)strtoul(value, &end, 10);
    return *end == 0;
}

/* Whether the next line has the key and this number. */
static bool has_number(struct lines *l, const char *key, uint32_t due)
{
    uint32_t number;
    return take_number(l, key, &number) && number == due;
}

/* The names of one part, from the one on that has the number `at` on the list. */
static bool look_at_names(const struct flash *f, struct staff *s, uint32_t part)
{
    struct lines l;
    if (!file_lines(f, NAMES + part, &l) || !has_number(&l, "night", s->night) || !has_number(&l, "part", part + 1))
        return false;
    for (uint32_t i = part * NAMES_IN_PART; i < s->people && i < (part + 1) * NAMES_IN_PART; i++)
        if (!take_value(&l, "name", s->name[i]))
            return false;
    return l.at == l.end;
}

/* The numbers of the people, which us_staff has found to be a list. */
static bool look_at_numbers(const struct flash *f, struct staff *s)
{
    struct lines l;
    uint32_t head;
    if (!file_lines(f, LIST, &l) || !take_number(&l, "night", &head) || !take_number(&l, "zone", &head) ||
        !take_number(&l, "people", &head))
        return false;
    for (uint32_t i = 0; i < s->people; i++)
        if (!take_number(&l, "person", &s->number[i]))
            return false;
    return true;
}

/* Whether list and names belong together: a name for each person, of the same night, and no other part stands. */
static bool look_at_list(const struct flash *f, struct held *held)
{
    struct lines l;
    us_staff_list list = us_staff(f->bytes, f->length, f->size, f->units);
    if (list.number != US_DONE && list.number != US_NO_LIST)
        return false;
    held->staff.night = (uint32_t)list.night;
    held->staff.zone = (uint32_t)list.zone;
    held->staff.people = (uint32_t)list.people;
    held->parts = (held->staff.people + NAMES_IN_PART - 1) / NAMES_IN_PART;
    if (list.number == US_DONE && !look_at_numbers(f, &held->staff))
        return false;
    for (uint32_t part = 0; part < held->parts; part++)
        if (!look_at_names(f, &held->staff, part))
            return false;
    for (uint32_t part = held->parts; part < MOST_PARTS; part++)
        if (file_lines(f, NAMES + part, &l))
            return false;
    return true;
}

static void add(struct held *held, const char *format, ...)
{
    va_list values;
    size_t length = strlen(held->text);
    va_start(values, format);
    vsnprintf(held->text + length, sizeof held->text - length, format, values);
    va_end(values);
}

/* A pass has its own number and two people; what stands in its place and is none is said. */
static void look_at_pass(const struct flash *f, struct held *held, uint32_t pass)
{
    struct lines l;
    uint32_t *holder = held->holder[pass];
    if (!file_lines(f, PASS + pass, &l))
        return;
    if (pass == held->passes && has_number(&l, "pass", pass) && take_number(&l, "first", &holder[0]) &&
        take_number(&l, "second", &holder[1]) && holder[0] != holder[1] && l.at == l.end) {
        held->passes++;
        return;
    }
    held->is_whole = false;
    add(held, ", PASS %u IS NONE OR HAS ONE NAME", (unsigned)pass);
}

static void look_at_passes(const struct flash *f, struct held *held, uint32_t passes)
{
    us_pass_count count = us_register(f->bytes, f->length, f->size, f->units);
    for (uint32_t pass = 0; pass < passes; pass++)
        look_at_pass(f, held, pass);
    add(held, ", %u pass%s", (unsigned)held->passes, held->passes == 1 ? "" : "es");
    if (count.number == US_DONE && count.count == held->passes) {
        add(held, ", register %u", (unsigned)count.count);
        return;
    }
    held->is_whole = false;
    if (count.number == US_DONE)
        add(held, ", THE REGISTER COUNTS %u", (unsigned)count.count);
    else
        add(held, ", %s", number_in_words(count.number));
}

void depot_look(const struct flash *f, struct held *held, uint32_t passes)
{
    struct lines l;
    memset(held, 0, sizeof *held);
    held->is_whole = look_at_list(f, held);
    if (!held->is_whole)
        add(held, "HALF A LIST");
    else if (held->staff.people > 0)
        add(held, "night %u's list, %u people", (unsigned)held->staff.night, (unsigned)held->staff.people);
    else
        add(held, "no list");
    look_at_passes(f, held, passes);
    if (file_lines(f, DOOR, &l))
        add(held, ", door");
    if (file_lines(f, NOTICE, &l))
        add(held, ", notice");
}
