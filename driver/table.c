#include "table.h"

/* Built without the table's calls, where the archive has none, it answers their lines by `error`. */
#ifdef WITHOUT_TABLE
bool play_table(const struct command *c)
{
    (void)c;
    return false;
}
#else

#include <inttypes.h>
#include <stdio.h>
#include <string.h>

#include "../include/undernshade_table.h"
#include "session.h"

enum { MOST_ENTRIES = 300, GUARDING = 11 };

/* The guards stand right before and right behind the entries. */
struct lent {
    size_t entries;
    us_entry room[GUARDING + MOST_ENTRIES + GUARDING];
};

static struct lent table = { .entries = US_ENTRIES };
static struct lent kept = { .entries = US_ENTRIES };

/* What every call takes after the image. */
#define TABLE table.room + GUARDING, table.entries

static us_entry *entry(size_t i)
{
    return &table.room[GUARDING + i];
}

static void guard_table(void)
{
    memset(table.room, GUARD_BYTE, GUARDING * sizeof(us_entry));
    memset(entry(table.entries), GUARD_BYTE, GUARDING * sizeof(us_entry));
}

static const char *table_guards_said(void)
{
    const uint8_t *before = (const uint8_t *)table.room;
    const uint8_t *behind = (const uint8_t *)entry(table.entries);
    for (size_t i = 0; i < GUARDING * sizeof(us_entry); i++)
        if (before[i] != GUARD_BYTE || behind[i] != GUARD_BYTE)
            return " bytes-beside-the-table-changed";
    return "";
}

/* As the image's hash, without a division for each number. */
static uint64_t added(uint64_t h, uint32_t number)
{
    h = h * 65537 + number + 1;
    return (h & UINT32_MAX) + 5 * (h >> 32);
}

static uint32_t table_hash(void)
{
    uint64_t h = 0;
    for (size_t i = 0; i < table.entries; i++)
        h = added(added(added(added(h, entry(i)->state), entry(i)->unit), entry(i)->position), entry(i)->length);
    return (uint32_t)(h % UINT64_C(4294967291));
}

static bool said_ok(void)
{
    puts("ok");
    return true;
}

static bool play_size(size_t entries)
{
    if (entries > MOST_ENTRIES)
        return false;
    if (entries > table.entries)
        memset(entry(table.entries), 0, (entries - table.entries) * sizeof(us_entry));
    table.entries = entries;
    return said_ok();
}

static bool play_put(uint32_t place, uint32_t value)
{
    if (place / 4 >= table.entries || value > (place % 4 < 2 ? UINT8_MAX : UINT16_MAX))
        return false;
    us_entry *e = entry(place / 4);
    switch (place % 4) {
    case 0: e->state = (uint8_t)value; break;
    case 1: e->unit = (uint8_t)value; break;
    case 2: e->position = (uint16_t)value; break;
    default: e->length = (uint16_t)value; break;
    }
    return said_ok();
}

static bool play_show(void)
{
    uint32_t files = 0;
    for (size_t i = 0; i < table.entries; i++)
        files += entry(i)->state == US_ENTRY_FILE;
    bool usable = table.entries == US_ENTRIES && (entry(0)->state == US_ENTRY_NO_FILE || entry(0)->state == US_ENTRY_FILE);
    printf("entries=%zu usable=%d files=%" PRIu32 " table=%" PRIu32 "\n", table.entries, usable, files, table_hash());
    return true;
}

static bool play_entry(size_t i)
{
    if (i >= table.entries)
        return false;
    printf("state=%d unit=%d position=%d length=%d\n", entry(i)->state, entry(i)->unit, entry(i)->position, entry(i)->length);
    return true;
}

static us_report call(const struct command *c)
{
    uint32_t first = c->number[0];
    uint32_t second = c->number[1];
    switch (c->verb) {
    case VERB_TFORMAT: return us_table_format(IMAGE, TABLE, first);
    case VERB_TMOUNT: return us_table_mount(IMAGE, TABLE, first);
    case VERB_TBEGIN: return us_table_begin(IMAGE, TABLE, first);
    case VERB_TCOMMIT: return us_table_commit(IMAGE, TABLE, first);
    case VERB_TABORT: return us_table_abort(IMAGE, TABLE, first);
    case VERB_TWRITE: return us_table_write(IMAGE, TABLE, first, c->content, c->length, second);
    case VERB_TDELETE: return us_table_delete(IMAGE, TABLE, first, second);
    case VERB_TFILL: return us_table_fill(IMAGE, TABLE);
    default: return us_table_read(IMAGE, TABLE, first);
    }
}

bool play_table(const struct command *c)
{
    switch (c->verb) {
    case VERB_TSIZE: return play_size(c->number[0]);
    case VERB_TPUT: return play_put(c->number[0], c->number[1]);
    case VERB_TKEEP: kept = table; return said_ok();
    case VERB_TBACK: table = kept; return said_ok();
    case VERB_TSHOW: return play_show();
    case VERB_TENTRY: return play_entry(c->number[0]);
    default: break;
    }
    set_guards();
    guard_table();
    print_report(call(c));
    printf(" table=%" PRIu32 "%s\n", table_hash(), table_guards_said());
    return true;
}

#endif
