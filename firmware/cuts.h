/* The power cut at every step of every call. */
#ifndef FIRMWARE_CUTS_H
#define FIRMWARE_CUTS_H

#include "calls.h"

/* The short form cuts no mount, and plays only every 16th history on to its end; the brief one says it all in one line. One that fills goes
 * on behind the story with passes until the store has no room. */
struct plan {
    uint32_t size, units, nights;
    bool is_short, is_brief, fills;
};

struct counts {
    uint32_t cuts, mount_cuts, histories, images, wrong;
};

/* Plays the depot's story cut everywhere, says what the store held, and adds to the counts. */
void cuts_try(const struct plan *plan, struct counts *counts);

void cuts_sum_up(const struct counts *counts);

#endif
