/* A call of the store as data, so that a history can be played, cut and played again. */
#ifndef FIRMWARE_CALLS_H
#define FIRMWARE_CALLS_H

#include <stdbool.h>

#include "../include/undernshade_passes.h"
#include "../include/undernshade_table.h"

enum { LARGEST_IMAGE = 65536, LARGEST_CONTENT = 256, FILES = 256, LONGEST_TITLE = 64, MOST_CALLS = 160 };

/* What every byte of a chip is as it comes from the factory. */
enum { FACTORY_BYTE = 0x5A };

/* The image that the terminal lends to the store, and the table beside it, which a cut of the power takes away. */
struct flash {
    uint32_t size;
    uint32_t units;
    size_t length;
    us_entry table[US_ENTRIES];
    uint8_t bytes[LARGEST_IMAGE];
};

enum verb { FORMAT, MOUNT, BEGIN, WRITE, DELETE, COMMIT, ABORT, GIVE };

struct call {
    enum verb verb;
    uint32_t file;
    uint32_t first, second; /* the two people of a pass */
    uint32_t due;           /* the number that it has to answer */
    bool fills;             /* goes on until the store is full: NO ROOM is as good an answer as DONE */
    size_t length;
    uint8_t content[LARGEST_CONTENT];
    char title[LONGEST_TITLE];
};

struct history {
    size_t count;
    struct call call[MOST_CALLS];
};

bool geometry_is_good(uint32_t size, uint32_t units);
void flash_new(struct flash *f, uint32_t size, uint32_t units, uint8_t byte);
void flash_copy(struct flash *to, const struct flash *from);

/* The power is gone, and with it what stood in memory. */
void flash_lose_power(struct flash *f);

/* All go through the table but the pass, which knows none: after it the table is filled. The report of a pass has number and steps, and the
 * pass's file. */
us_report flash_call(struct flash *f, const struct call *c, uint32_t allowance);
us_report flash_mount(struct flash *f, uint32_t allowance);

/* Whether the image is settled, by the store's own answer to a read. */
bool flash_is_settled(const struct flash *f);

/* The content of a file in the committed view, through the table, as a part of the image; NULL where the file is absent or the read is
 * refused. A badge takes some forty of these. */
const uint8_t *flash_read(const struct flash *f, uint32_t file, size_t *length);

const char *number_in_words(uint32_t number);

/* Where a history can be begun again after a cut, and where its files are what is committed. */
bool begins_a_transaction(const struct call *c);
bool ends_a_transaction(const struct call *c);

/* Adds a call that has to be DONE; the program ends where there is no room for it, or the content is too long. */
struct call *history_add(struct history *h, enum verb verb, uint32_t file, const char *content, const char *title, ...);

#endif
