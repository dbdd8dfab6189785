/* What a program that makes random scripts or images is asked for: COUNT, SEED, and perhaps more; and the programs that make scripts. */
#ifndef PEER_ASKED_H
#define PEER_ASKED_H

#include <stdint.h>
#include <stdio.h>

/* Seeds the random numbers, and gives the count; ends the program with its usage where there are more or fewer words, or the first two are
 * no numbers. */
uint64_t asked_count(int argc, char **argv, int words, const char *usage);

/* What writes a script: a history, the calls made so far, what is counted at the end. */
struct generator {
    const char *usage;
    void (*history)(uint64_t wanted);
    uint64_t (*made)(void);
    void (*print_counts)(FILE *out);
};

/* Histories on standard output until COUNT calls are made, then the counts on standard error; gives the program's status. */
int asked_script(int argc, char **argv, const struct generator *g);

#endif
