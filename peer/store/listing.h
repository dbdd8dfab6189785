/* The listing program's text. */
#ifndef PEER_LISTING_H
#define PEER_LISTING_H

#include "store.h"

/* Four lines and 256 files of at most 29 characters, with room for what joins them. */
enum { MAX_LISTING = 16384 };

/* Writes the lines, joined by the given text, the last one without it; ends with a zero byte. */
void listing_text(struct flash f, const char *between, char text[MAX_LISTING]);

#endif
