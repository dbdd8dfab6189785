/* One step of a call: what it changes, and in words. */
#ifndef FIRMWARE_STEPS_H
#define FIRMWARE_STEPS_H

#include "calls.h"

struct step {
    bool is_erase;
    size_t at;     /* the word's place, or the unit's */
    size_t length; /* bytes that it changes: 2, or the unit's */
};

/* The call's image after `made` of its steps, begun on `before`; false where the call has no more steps than that and is done. */
bool step_reach(const struct flash *before, const struct call *c, uint32_t made, struct flash *after, us_report *r);

/* What one step changed: a word, or a unit that was erased. False where nothing differs, or what differs is neither. */
bool step_between(const struct flash *before, const struct flash *after, struct step *s);

void step_in_words(const struct flash *after, const struct step *s, char words[120]);

#endif
