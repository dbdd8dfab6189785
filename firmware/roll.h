/* The staff list as a person writes it: a file with one person a line, a number, a blank and a name. */
#ifndef FIRMWARE_ROLL_H
#define FIRMWARE_ROLL_H

#include "depot.h"

/* Whether the text is a decimal number without leading zeros, up to the largest. */
bool roll_number(const char *text, uint32_t largest, uint32_t *number);

/* Reads the people into the list, and puts them in ascending order; false, with a message, where the file is no such list. */
bool roll_read(const char *path, struct staff *s);

#endif
