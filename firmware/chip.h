/* A chip that is a file: what the terminal does with an image that outlives it. */
#ifndef FIRMWARE_CHIP_H
#define FIRMWARE_CHIP_H

#include "calls.h"

/* Does one command on the image file: format, story, list, take NIGHT ZONE STAFF, pass FIRST SECOND. The power is cut after that many
 * steps of the command, where it has so many; US_ALL means never. Gives the program's exit status. */
int chip_command(const char *path, uint32_t size, uint32_t units, uint32_t steps, char *const *words, int count);

#endif
