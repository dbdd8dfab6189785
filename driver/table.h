/* The lines of a script that are about the table, through include/undernshade_table.h. */
#ifndef DRIVER_TABLE_H
#define DRIVER_TABLE_H

#include "../peer/replay/parse.h"

/* False where a number is out of its range, or where the program was built without the table's calls. */
bool play_table(const struct command *c);

#endif
