/* What the three programs have in common: standard input read whole, its two header lines, and an output that is written whole or ends the
 * program with a status that says it was not. */
#ifndef DESK_H
#define DESK_H

#include <stddef.h>
#include <stdint.h>

enum { LARGEST_IMAGE = 65536 };

/* How a program ends. */
enum {
    WRITTEN = 0, /* the output is written whole */
    REFUSED = 1, /* the input was refused: the output, written whole, is the line `refused=` and its number */
    FAILED = 2   /* wrong words on the command line, the input was not read, or the output was not written whole */
};

struct input {
    uint32_t size; /* of a unit */
    uint32_t units;
    uint8_t *rest; /* what follows the two lines */
    size_t length;
};

/* Takes the words of the command line: `--help` prints the text and ends the program, any other word ends it with FAILED. */
void desk_begin(int argc, char **argv, const char *name, const char *help);

/* Reads standard input into the room and takes its header. Where it has over `most` bytes, or other header lines, it is refused as 2. */
struct input desk_read(uint8_t *room, size_t most);

/* Writes the bytes to standard output; desk_end ends the program once all that was written is out. */
void desk_write(const void *bytes, size_t length);
_Noreturn void desk_end(int status);

/* Ends the program: standard output has only `refused=` and the number, standard error the words. */
_Noreturn void desk_refuse(uint32_t number, const char *words);

#endif
