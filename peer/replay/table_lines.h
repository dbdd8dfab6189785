/* The lines of a script that are about the table. */
#ifndef PEER_TABLE_LINES_H
#define PEER_TABLE_LINES_H

#include "parse.h"

/* False where a number is out of its range. */
bool play_table(const struct command *c);

#endif
