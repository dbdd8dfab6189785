/* The calls of the store. Each takes any image, geometry numbers, file, handle and allowance. */
#ifndef PEER_STORE_H
#define PEER_STORE_H

#include "judge.h"
#include "rule.h"

enum number {
    DONE = 0,
    STOPPED = 1,
    BAD_GEOMETRY = 2,
    BAD_IMAGE = 3,
    UNSETTLED = 4,
    BAD_FILE = 5,
    TOO_LONG = 6,
    NO_TRANSACTION = 7,
    OPEN = 8,
    ABSENT = 9,
    NO_ROOM = 10,
    BAD_HANDLE = 11,
    NUMBERS = 12
};

/* Said by a read in the transaction view, DONE or ABSENT, and by a delete that is ABSENT: the content was committed before
   or is of the open transaction; the file was not there before or was deleted in the open transaction. */
enum from { NOT_SAID = 0, COMMITTED_BEFORE = 1, THIS_TRANSACTION = 2 };

/* The content is the part of the image from start on, start being 0 where length is 0. */
struct answer {
    uint32_t number;
    uint32_t steps;
    struct handle at;
    uint32_t file;
    uint32_t start;
    uint32_t length;
    enum from from;
};

enum judgement { JUDGED_BAD_GEOMETRY, JUDGED_BAD_IMAGE, JUDGED_UNSETTLED, JUDGED_SETTLED };

struct answer store_format(struct flash f, uint32_t allowance);
struct answer store_mount(struct flash f, uint32_t allowance);
struct answer store_begin(struct flash f, uint32_t allowance);
struct answer store_write(struct flash f, uint32_t file, const uint8_t *content, uint32_t length, uint32_t allowance);
struct answer store_delete(struct flash f, uint32_t file, uint32_t allowance);

/* The same by a rule; those above go by the default. */
struct answer store_begin_by(struct flash f, enum rule rule, uint32_t allowance);
struct answer store_write_by(struct flash f, enum rule rule, uint32_t file, const uint8_t *content, uint32_t length, uint32_t allowance);
struct answer store_delete_by(struct flash f, enum rule rule, uint32_t file, uint32_t allowance);

struct answer store_commit(struct flash f, uint32_t allowance);
struct answer store_abort(struct flash f, uint32_t allowance);

struct answer store_read(struct flash f, uint32_t file);
struct answer store_read_transaction(struct flash f, uint32_t file);
struct answer store_read_handle(struct flash f, struct handle at);

enum judgement store_judge(struct flash f);

/* Decodes the image; gives the refusal 2, 3 or 4 that it calls for, or DONE where it is settled. */
uint32_t store_decode(const struct flash *f, struct store *s);

#endif
