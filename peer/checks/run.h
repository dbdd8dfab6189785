/* A run: an image with the calls that led to it, so that a violation can be played again. */
#ifndef PEER_RUN_H
#define PEER_RUN_H

#include "bench.h"

enum { MAX_TRAIL = 32, MAX_GIVEN = 300, MAX_CALL_CONTENT = 1024 };

enum call_kind {
    CALL_FORMAT,
    CALL_MOUNT,
    CALL_BEGIN,
    CALL_WRITE,
    CALL_DELETE,
    CALL_COMMIT,
    CALL_ABORT,
    CALL_READ,
    CALL_READTX,
    CALL_READAT,
    CALL_KINDS
};

struct call {
    enum call_kind kind;
    enum rule rule; /* of a begin, write or delete */
    uint32_t file;
    struct handle at;
    uint32_t length;
    uint8_t content[MAX_CALL_CONTENT];
};

struct made {
    const struct call *call;
    uint32_t allowance;
};

/* The calls in the trail lead from the image that run_start saw to this one. */
struct run {
    struct bench bench;
    uint32_t calls;
    bool last_changed_nothing; /* the last call of the trail was refused or only read */
    struct made trail[MAX_TRAIL];
};

struct counts {
    uint64_t calls, stopped, reads, images, damaged, mounts, reclaims, histories;
    uint64_t chains, longest_chain;
    uint64_t law_makes, law_orders, law_rows, law_dropped, law_unmet, other_geometry;
    uint64_t number[NUMBERS];
    uint64_t group[GROUPS];
    uint32_t greatest_mount, greatest_unit_size, greatest_units;
};

extern struct counts counts;
extern const struct call call_mount;

/* Prints a call as a line of a script. */
void call_print(const struct call *c, uint32_t allowance);

/* Makes a call, and nothing else. */
struct answer call_make(struct flash f, const struct call *c, uint32_t allowance);

/* Forgets the trail: from here on it begins with this image. */
void run_start(struct run *r);
void run_copy(struct run *to, const struct run *from);

/* Makes a call, counts it, and checks what holds of every answer on every image. */
struct answer run_call(struct run *r, const struct call *c, uint32_t allowance);

/* Prints the violation with a script that plays it again, and ends the program. */
_Noreturn void run_violation(const struct run *r, const char *what);
void run_require(const struct run *r, bool ok, const char *what);

/* Judges, counts the group met, and requires the same judgement twice and no change. */
enum group run_judge(const struct run *r);

#endif
