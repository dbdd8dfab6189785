#include "depot.h"

#include <stdio.h>
#include <string.h>

enum { LONGEST_TEXT = LARGEST_CONTENT + 64, STAFF = 18, LAST_NIGHT = 14 };

static void write_list(struct history *h, const struct staff *s)
{
    char content[LONGEST_TEXT];
    size_t length = (size_t)snprintf(content, sizeof content, "night=%u\nzone=%u\npeople=%u\n", (unsigned)s->night, (unsigned)s->zone,
                                     (unsigned)s->people);
    for (uint32_t i = 0; i < s->people; i++)
        length += (size_t)snprintf(content + length, sizeof content - length, "person=%u\n", (unsigned)s->number[i]);
    history_add(h, WRITE, LIST, content, "write night %u's list", (unsigned)s->night);
}

static void write_names(struct history *h, const struct staff *s, uint32_t part)
{
    char content[LONGEST_TEXT];
    size_t length = (size_t)snprintf(content, sizeof content, "night=%u\npart=%u\n", (unsigned)s->night, (unsigned)part + 1);
    for (uint32_t i = part * NAMES_IN_PART; i < s->people && i < (part + 1) * NAMES_IN_PART; i++)
        length += (size_t)snprintf(content + length, sizeof content - length, "name=%s\n", s->name[i]);
    history_add(h, WRITE, NAMES + part, content, "write night %u's names, part %u", (unsigned)s->night, (unsigned)part + 1);
}

void depot_take(struct history *h, const struct staff *s, uint32_t parts_before)
{
    uint32_t parts = (s->people + NAMES_IN_PART - 1) / NAMES_IN_PART;
    history_add(h, BEGIN, 0, "", "begin night %u's list", (unsigned)s->night);
    write_list(h, s);
    for (uint32_t part = 0; part < parts; part++)
        write_names(h, s, part);
    for (uint32_t part = parts; part < parts_before; part++)
        history_add(h, DELETE, NAMES + part, "", "delete part %u of the names before", (unsigned)part + 1);
    history_add(h, COMMIT, 0, "", "commit night %u's list", (unsigned)s->night);
}

struct call *depot_pass(struct history *h, uint32_t first, uint32_t second)
{
    struct call *c = history_add(h, GIVE, 0, "", "give a pass to %u and %u", (unsigned)first, (unsigned)second);
    c->first = first;
    c->second = second;
    return c;
}

/* The list of some nights before the last: part of the staff, another part each night. */
static struct staff staff_of(uint32_t before)
{
    static const char *const staff[STAFF] = { "Grace Adeyemi", "Tom Brandt", "Rosa Costa",   "Finn Dahl",   "Ida Eriksen", "Omar Farouk",
                                              "Lena Gruber",   "Minh Hoang", "Vera Ivanova", "Piet Jansen", "Ute Keller",  "Nils Lindqvist",
                                              "Zoe Martin",    "Jan Nowak",  "Ada Okafor",   "Oleg Petrov", "Inga Quist",  "Sami Rantala" };
    static const uint32_t people[] = { 8, 9, 7 };
    struct staff s = { .night = LAST_NIGHT - before, .zone = 3 };
    for (uint32_t i = 0; i < STAFF; i++) {
        if ((i + STAFF * before - 5 * before) % STAFF >= people[before % 3])
            continue;
        s.number[s.people] = 101 + 6 * i;
        strcpy(s.name[s.people++], staff[i]);
    }
    return s;
}

static void take_list_of(struct history *h, uint32_t before, bool is_first)
{
    struct staff s = staff_of(before);
    depot_take(h, &s, is_first ? 0 : (staff_of(before + 1).people + NAMES_IN_PART - 1) / NAMES_IN_PART);
}

void depot_story(struct history *h, uint32_t nights)
{
    struct staff last = staff_of(0), before = staff_of(1);
    h->count = 0;
    history_add(h, FORMAT, 0, "", "format");
    history_add(h, BEGIN, 0, "", "begin the settings");
    history_add(h, WRITE, DOOR, "opens=04:30\ncloses=01:15\n", "write the door's hours");
    history_add(h, WRITE, NOTICE, "Gate 3 is shut until night 14.\n", "write the notice");
    history_add(h, COMMIT, 0, "", "commit the settings");
    depot_pass(h, before.number[5], before.number[3])->due = US_NO_LIST;
    for (uint32_t night = nights - 1; night > 0; night--)
        take_list_of(h, night, night == nights - 1);
    depot_pass(h, before.number[5], before.number[3]);
    depot_pass(h, before.number[5], before.number[5])->due = US_SAME_PERSON;
    history_add(h, BEGIN, 0, "", "begin a list that is given up");
    history_add(h, WRITE, LIST, "", "write an empty list");
    depot_pass(h, before.number[5], before.number[3])->due = US_OPEN;
    history_add(h, ABORT, 0, "", "abort it");
    take_list_of(h, 0, false);
    history_add(h, BEGIN, 0, "", "begin to take the notice down");
    history_add(h, DELETE, NOTICE, "", "delete the notice");
    history_add(h, COMMIT, 0, "", "commit that");
    depot_pass(h, before.number[5], before.number[3])->due = US_NOT_ON_LIST;
    depot_pass(h, last.number[6], last.number[3]);
}

void depot_fill(struct history *h, uint32_t passes)
{
    struct staff last = staff_of(0);
    for (uint32_t i = 0; i < passes; i++)
        depot_pass(h, last.number[i % 7], last.number[7])->fills = true;
}
