#include "desk.h"

#include <errno.h>
#include <stdbool.h>
#include <stdio.h>
#include <stdlib.h>
#include <string.h>

static const char *name;

static _Noreturn void fail(const char *what)
{
    fprintf(stderr, "%s: %s: %s\n", name, what, strerror(errno));
    exit(FAILED);
}

void desk_begin(int argc, char **argv, const char *program, const char *help)
{
    name = program;
    if (argc == 1)
        return;
    if (argc == 2 && (strcmp(argv[1], "--help") == 0 || strcmp(argv[1], "-h") == 0)) {
        desk_write(help, strlen(help));
        desk_end(WRITTEN);
    }
    fprintf(stderr, "%s: '%s' is not known: it takes no words, and reads standard input (%s --help)\n", name, argv[1], name);
    exit(FAILED);
}

void desk_write(const void *bytes, size_t length)
{
    if (length > 0 && fwrite(bytes, 1, length, stdout) != length)
        fail("the output was not written whole");
}

_Noreturn void desk_end(int status)
{
    if (fflush(stdout) != 0 || fclose(stdout) != 0)
        fail("the output was not written whole");
    exit(status);
}

_Noreturn void desk_refuse(uint32_t number, const char *words)
{
    char line[32];
    desk_write(line, (size_t)snprintf(line, sizeof line, "refused=%u\n", (unsigned)number));
    fprintf(stderr, "%s: refused, %u: %s\n", name, (unsigned)number, words);
    desk_end(REFUSED);
}

/* Takes KEY, a decimal number without leading zeros and a line feed off the front; a number that no geometry has is a refusal anyway. */
static bool take_line(struct input *in, const char *key, uint32_t *number)
{
    size_t at = strlen(key), first = at;
    if (in->length < at || memcmp(in->rest, key, at) != 0)
        return false;
    *number = 0;
    for (; at < in->length && in->rest[at] >= '0' && in->rest[at] <= '9'; at++) {
        if (*number > LARGEST_IMAGE)
            return false;
        *number = *number * 10 + (in->rest[at] - '0');
    }
    if (at == first || in->rest[first] == '0' || at == in->length || in->rest[at] != '\n')
        return false;
    in->rest += at + 1;
    in->length -= at + 1;
    return true;
}

struct input desk_read(uint8_t *room, size_t most)
{
    struct input in = { .rest = room };
    in.length = fread(room, 1, most + 1, stdin);
    if (ferror(stdin))
        fail("the input was not read");
    if (in.length > most)
        desk_refuse(2, "the input is longer than any that is taken");
    if (!take_line(&in, "unit=", &in.size) || !take_line(&in, "units=", &in.units))
        desk_refuse(2, "the input does not begin with the lines unit=.. and units=.. (--help has an example)");
    return in;
}
