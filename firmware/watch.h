/* The depot's story step by step, for a person to watch. */
#ifndef FIRMWARE_WATCH_H
#define FIRMWARE_WATCH_H

#include "calls.h"

/* Waits for Enter at each step; with a delay, or where standard input is no terminal, it goes on by itself and cuts the power at
 * three places of its own. False where a call is refused or the store does not hold what it must. */
bool watch(uint32_t size, uint32_t units, uint32_t nights, bool has_delay, unsigned milliseconds);

#endif
