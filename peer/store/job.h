/* A job: the list of intents that one call has, and running it under an allowance. */
#ifndef PEER_JOB_H
#define PEER_JOB_H

#include "flash.h"

/* A copy has at most 2,048 words, a sound image at most 257 pending descriptors, a store 134 words. */
enum { MAX_INTENTS = 4096 };

struct intent {
    bool erases;
    uint32_t at;
    uint16_t value;
};

struct job {
    uint32_t count;
    struct intent list[MAX_INTENTS];
};

void job_start(struct job *j);
void job_program(struct job *j, uint32_t address, uint16_t value);
void job_erase(struct job *j, uint32_t unit);

/* Makes the first steps; true where all were made. An intent that would change no word is no step. */
bool job_run(const struct job *j, struct flash *f, uint32_t allowance, uint32_t *steps);

#endif
