/* How a unit is laid out, read from any bytes: for the picture, and for the words of a step. */
#ifndef FIRMWARE_LAYOUT_H
#define FIRMWARE_LAYOUT_H

#include <stdbool.h>
#include <stddef.h>
#include <stdint.h>

enum { HEADER_BYTES = 16, DESCRIPTOR_BYTES = 8, ERASED_WORD = 0xFFFF };
enum { STATE_RECEIVING = 0xFFFF, STATE_LIVE = 0xFFFE, STATE_RETIRED = 0xFFFC };
enum { TAG_DATA = 0x1000, TAG_DELETE_MARK = 0x2000, TAG_TRANSACTION = 0x3000 };

enum kind { EMPTY, TORN, ALLOCATED, PENDING, CURRENT, OLD, VOID, UNLISTED, KINDS };

struct descriptor {
    uint16_t flags, offset, length, tag;
    enum kind kind;
};

/* n and low as document 01 reads the array; low is never below the array's end. */
struct unit {
    const uint8_t *bytes;
    uint32_t size;
    uint16_t logical;
    uint16_t state;
    bool is_erased;
    uint32_t n;
    uint32_t low;
};

uint16_t layout_word(const uint8_t *at);
void layout_unit(struct unit *u, const uint8_t *bytes, uint32_t size);

/* The descriptor at a position below n. */
struct descriptor layout_descriptor(const struct unit *u, uint32_t position);

/* Whether the descriptor has a sector that lies in the unit, and that sector's even size. */
bool layout_sector(const struct unit *u, const struct descriptor *d, uint32_t *size);

const char *kind_name(enum kind kind);

/* The kind's name; `open` or `committed` for a transaction. */
const char *kind_in_words(const struct descriptor *d);

const char *state_in_words(uint16_t state);

/* `file 7`, `deletes file 7`, `transaction`, `no tag yet`, or the tag in hex. */
void tag_in_words(uint16_t tag, char words[24]);

#endif
