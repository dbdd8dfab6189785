/* Random calls and contents, sensible or not, that need no model. */
#ifndef PEER_CALLS_H
#define PEER_CALLS_H

#include "run.h"

/* Units of an image: 3 in so many of a hundred, else in so many 3 to 6, else any number of them or the most. */
uint32_t random_units(uint32_t unit_size, uint32_t three, uint32_t few);

void random_call(struct call *c, uint32_t units);
void random_content(struct call *c);
void random_content_of(struct call *c, uint32_t length);

#endif
