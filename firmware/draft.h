/* The screen of an open draft: what it shows of each file of the depot, and where that came from. */
#ifndef FIRMWARE_DRAFT_H
#define FIRMWARE_DRAFT_H

#include "calls.h"

/* Shows the draft, one line a file, and gives US_DONE; where none can be shown, only the store's refusal. Nothing is changed, and not
 * mounted. */
uint32_t draft_show(const struct flash *f);

#endif
