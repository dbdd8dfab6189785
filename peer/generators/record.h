/* A record: S, U and N as three numbers of four bytes, low byte first, then N bytes of image. */
#ifndef PEER_RECORD_H
#define PEER_RECORD_H

#include <stdio.h>

#include "../store/flash.h"

/* Opens the file, or ends the program with a message. */
FILE *record_open(const char *path);

/* Bytes beyond the largest image are written as FF; a write that fails ends the program. */
void record_write(FILE *out, const struct flash *f);
void record_close(FILE *out);

#endif
