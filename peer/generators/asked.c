#include "asked.h"

#include <stdbool.h>
#include <stdlib.h>

#include "../checks/random.h"

static bool number(const char *text, uint64_t *value)
{
    char *end;
    *value = strtoull(text, &end, 10);
    return *text >= '0' && *text <= '9' && *end == '\0';
}

uint64_t asked_count(int argc, char **argv, int words, const char *usage)
{
    uint64_t count, seed;
    if (argc != 1 + words || !number(argv[1], &count) || !number(argv[2], &seed)) {
        fprintf(stderr, "usage: %s\n", usage);
        exit(2);
    }
    random_seed(seed);
    return count;
}

int asked_script(int argc, char **argv, const struct generator *g)
{
    uint64_t wanted = asked_count(argc, argv, 2, g->usage);
    while (g->made() < wanted)
        g->history(wanted);
    g->print_counts(stderr);
    return fflush(stdout) == 0 ? EXIT_SUCCESS : 2;
}
