/* Pass lists and manual passes, over the store's calls alone: the list is file 0, the register file 1, pass n file 2 + n. */
#ifndef PEER_PASSES_H
#define PEER_PASSES_H

#include "store.h"

enum {
    NO_LIST = 20,
    BAD_LIST = 21,
    NOT_ON_LIST = 22,
    SAME_PERSON = 23,
    BAD_REGISTER = 24,
    REGISTER_FULL = 25,
    PASS_NUMBERS = 26,
    MAX_PEOPLE = 16,
    MAX_PASSES = 126
};

/* What is not DONE has 0 in every field but number and steps. */
struct pass_answer {
    uint32_t number;
    uint32_t steps;
    uint32_t pass;
};

struct staff_answer {
    uint32_t number;
    uint32_t night;
    uint32_t zone;
    uint32_t people;
};

struct register_answer {
    uint32_t number;
    uint32_t count;
};

/* Gives a pass to two people of the list. A refusal by the store after its begin is followed by an abort, and counts its steps. */
struct pass_answer passes_give(struct flash f, uint32_t first, uint32_t second, uint32_t allowance);

/* Look at what is committed, also while a transaction is open. */
struct staff_answer passes_staff(struct flash f);
struct register_answer passes_register(struct flash f);

#endif
