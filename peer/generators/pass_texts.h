/* Random staff lists and registers: right ones, and such with one fault. */
#ifndef PEER_PASS_TEXTS_H
#define PEER_PASS_TEXTS_H

#include "../checks/run.h"
#include "../store/passes.h"

enum fault {
    FAULT_NONE,
    FAULT_CUT,
    FAULT_PADDED,
    FAULT_EMPTY,
    FAULT_ORDER, /* two lines exchanged, or two equal people */
    FAULT_LEADING_ZERO,
    FAULT_LIMIT,     /* night, zone or count just over, person 0 or 65,536 */
    FAULT_SEVENTEEN, /* people, or a people= just over */
    FAULT_MISMATCH,  /* people= is not the number of person lines */
    FAULT_NOBODY,    /* people=0 and no line behind it: a list */
    FAULT_NUMBER,    /* no digits, a sign, a blank, or a number that is right in 32 or 64 bits */
    FAULT_BYTE,      /* any byte changed */
    FAULTS
};

extern const char *const fault_name[FAULTS];

/* The people that the last list names, as they were before a fault. */
struct people {
    uint32_t count;
    uint32_t person[MAX_PEOPLE + 1];
};

/* Each makes the content of a write. */
enum fault random_list(struct call *c, struct people *people, bool right);
enum fault random_register(struct call *c, bool right);

#endif
