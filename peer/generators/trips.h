/* Trips away from a script's history: they look at the image, or leave it and come back. */
#ifndef PEER_TRIPS_H
#define PEER_TRIPS_H

#include "emit.h"

/* A few calls with any numbers: at and over the limits, in a wrong order, on handles that stand and that do not. */
void trip_side_calls(uint32_t many);

/* Damages the image and makes a few calls on it. */
void trip_damage(void);

/* The call at every stop, or at chosen ones, with a mount after it that may be stopped too. */
void trip_stops(const struct call *c);

/* The image cut or extended, with calls on it. */
void trip_length(void);

/* Numbers that make no geometry, or one at a limit, each in a history of its own. */
void trip_geometry(void);

/* Lines that are no commands, or out of range. */
void trip_wrong_lines(void);

/* A stop, or more than enough. */
uint32_t random_allowance(const struct plan *p);

#endif
