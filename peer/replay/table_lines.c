#include "table_lines.h"

#include <inttypes.h>
#include <string.h>

#include "../store/table.h"
#include "session.h"

static struct table table = { .entries = TABLE_ENTRIES };
static struct table kept = { .entries = TABLE_ENTRIES };

static uint64_t added(uint64_t h, uint32_t number)
{
    return (h * 65537 + number + 1) % UINT64_C(4294967291);
}

static uint32_t table_hash(void)
{
    uint64_t h = 0;
    for (uint32_t i = 0; i < table.entries; i++) {
        struct table_entry e = table.entry[i];
        h = added(added(added(added(h, e.state), e.unit), e.position), e.length);
    }
    return (uint32_t)h;
}

static bool said_ok(void)
{
    puts("ok");
    return true;
}

/* Entries that come in are zeros, also where there were some before. */
static bool play_size(uint32_t entries)
{
    if (entries > MAX_TABLE)
        return false;
    for (uint32_t i = entries; i < MAX_TABLE; i++)
        table.entry[i] = (struct table_entry){ 0, 0, 0, 0 };
    table.entries = entries;
    return said_ok();
}

static bool play_put(uint32_t place, uint32_t value)
{
    if (place / 4 >= table.entries || value > (place % 4 < 2 ? 255u : 65535u))
        return false;
    struct table_entry *e = &table.entry[place / 4];
    switch (place % 4) {
    case 0: e->state = (uint8_t)value; break;
    case 1: e->unit = (uint8_t)value; break;
    case 2: e->position = (uint16_t)value; break;
    default: e->length = (uint16_t)value; break;
    }
    return said_ok();
}

static bool play_show(void)
{
    uint32_t files = 0;
    for (uint32_t i = 0; i < table.entries; i++)
        files += table.entry[i].state == ENTRY_FILE;
    printf("entries=%" PRIu32 " usable=%d files=%" PRIu32 " table=%" PRIu32 "\n", table.entries, table_usable(&table), files, table_hash());
    return true;
}

static bool play_entry(uint32_t i)
{
    if (i >= table.entries)
        return false;
    struct table_entry e = table.entry[i];
    printf("state=%d unit=%d position=%d length=%d\n", e.state, e.unit, e.position, e.length);
    return true;
}

static struct answer call(const struct command *c)
{
    struct flash f = flash_now();
    uint32_t first = c->number[0];
    uint32_t second = c->number[1];
    switch (c->verb) {
    case VERB_TFORMAT: return table_format(f, &table, first);
    case VERB_TMOUNT: return table_mount(f, &table, first);
    case VERB_TBEGIN: return table_begin(f, &table, first);
    case VERB_TCOMMIT: return table_commit(f, &table, first);
    case VERB_TABORT: return table_abort(f, &table, first);
    case VERB_TWRITE: return table_write(f, &table, first, c->content, c->length, second);
    case VERB_TDELETE: return table_delete(f, &table, first, second);
    case VERB_TFILL: return table_fill(f, &table);
    default: return table_read(f, &table, first);
    }
}

bool play_table(const struct command *c)
{
    switch (c->verb) {
    case VERB_TSIZE: return play_size(c->number[0]);
    case VERB_TPUT: return play_put(c->number[0], c->number[1]);
    case VERB_TKEEP: kept = table; return said_ok();
    case VERB_TBACK: table = kept; return said_ok();
    case VERB_TSHOW: return play_show();
    case VERB_TENTRY: return play_entry(c->number[0]);
    default: break;
    }
    print_result(call(c));
    printf(" table=%" PRIu32 "\n", table_hash());
    return true;
}
