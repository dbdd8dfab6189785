/* Of the C library what the examples and the driver use: stdio.c. */
#ifndef BARE_STDLIB_H
#define BARE_STDLIB_H

#include <stddef.h>

enum { EXIT_SUCCESS = 0, EXIT_FAILURE = 1 };

_Noreturn void exit(int status);

/* One block at a time: the last one grows where it stands, and is never given back. */
void *realloc(void *block, size_t size);
void free(void *block);

#endif
