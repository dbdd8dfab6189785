/* One unit: its header, its array of descriptors, and the sectors they name. */
#ifndef PEER_UNIT_H
#define PEER_UNIT_H

#include "flash.h"

enum { HEADER_SIZE = 16, DESCRIPTOR_SIZE = 8, MAX_FILE = 255, MAX_CONTENT = 256 };

enum { STATE_RECEIVING = 0xFFFF, STATE_LIVE = 0xFFFE, STATE_RETIRED = 0xFFFC };

enum { TAG_DATA = 0x1000, TAG_DELETE_MARK = 0x2000, TAG_TRANSACTION = 0x3000 };

enum { FLAGS_ALLOCATED = 0xFFFE, FLAGS_PENDING = 0xFFFC, FLAGS_CURRENT = 0xFFF8, FLAGS_OLD = 0xFFF0, FLAGS_VOID = 0x0000 };

/* Where the four words of a descriptor stand in it. */
enum { AT_FLAGS = 0, AT_OFFSET = 2, AT_LENGTH = 4, AT_TAG = 6 };

enum kind { KIND_EMPTY, KIND_TORN, KIND_ALLOCATED, KIND_PENDING, KIND_CURRENT, KIND_OLD, KIND_VOID, KIND_UNLISTED };

struct descriptor {
    uint16_t flags;
    uint16_t offset;
    uint16_t length;
    uint16_t tag;
};

/* What reading a unit's array gives. */
struct array {
    uint32_t n;
    uint32_t low;
};

enum kind descriptor_kind(struct descriptor d);
bool descriptor_is_data(struct descriptor d);
bool descriptor_is_delete_mark(struct descriptor d);
bool descriptor_is_transaction(struct descriptor d);
uint32_t descriptor_file(struct descriptor d);
uint32_t even_size(uint32_t length);

uint16_t unit_logical(const struct flash *f, uint32_t unit);
uint16_t unit_state(const struct flash *f, uint32_t unit);
uint32_t unit_descriptor_address(const struct flash *f, uint32_t unit, uint32_t position);
struct descriptor unit_descriptor(const struct flash *f, uint32_t unit, uint32_t position);
struct array unit_array(const struct flash *f, uint32_t unit);

/* Bytes from the array's end up to low; needs low at or above the array's end. */
uint32_t array_gap(struct array a);
bool unit_is_kept(const struct flash *f, uint32_t unit, uint32_t position);

/* What settled asks of one home, apart from the kinds that only unfinished work leaves. */
bool unit_home_ok(const struct flash *f, uint32_t unit, struct array a);

#endif
