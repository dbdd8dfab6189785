/* The calls through a lent table: per file presence in the committed view, handle and length. */
#ifndef PEER_TABLE_H
#define PEER_TABLE_H

#include "store.h"

enum { STALE_TABLE = 12, TABLE_NUMBERS = 13, TABLE_ENTRIES = MAX_FILE + 1, MAX_TABLE = 300 };

enum entry_state { ENTRY_MARK = 0, ENTRY_NO_FILE = 1, ENTRY_FILE = 2 };

/* Any numbers may stand here. */
struct table_entry {
    uint8_t state;
    uint8_t unit;
    uint16_t position;
    uint16_t length;
};

/* Of any number of entries; those behind them are zeros. */
struct table {
    uint32_t entries;
    struct table_entry entry[MAX_TABLE];
};

bool table_usable(const struct table *t);
bool table_same(const struct table *a, const struct table *b);

struct answer table_format(struct flash f, struct table *t, uint32_t allowance);
struct answer table_mount(struct flash f, struct table *t, uint32_t allowance);
struct answer table_begin(struct flash f, struct table *t, uint32_t allowance);
struct answer table_write(struct flash f, struct table *t, uint32_t file, const uint8_t *content, uint32_t length, uint32_t allowance);
struct answer table_delete(struct flash f, struct table *t, uint32_t file, uint32_t allowance);
struct answer table_commit(struct flash f, struct table *t, uint32_t allowance);
struct answer table_abort(struct flash f, struct table *t, uint32_t allowance);

struct answer table_fill(struct flash f, struct table *t);
struct answer table_read(struct flash f, const struct table *t, uint32_t file);

#endif
