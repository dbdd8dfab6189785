#include "job.h"

#include <assert.h>

void job_start(struct job *j)
{
    j->count = 0;
}

static void add(struct job *j, struct intent i)
{
    assert(j->count < MAX_INTENTS);
    j->list[j->count++] = i;
}

void job_program(struct job *j, uint32_t address, uint16_t value)
{
    add(j, (struct intent){ .erases = false, .at = address, .value = value });
}

void job_erase(struct job *j, uint32_t unit)
{
    add(j, (struct intent){ .erases = true, .at = unit, .value = 0 });
}

static bool is_step(const struct flash *f, struct intent i)
{
    if (i.erases)
        return true;
    uint16_t old = flash_word(f, i.at);
    return (old & i.value) != old;
}

static void make(struct flash *f, struct intent i)
{
    if (i.erases)
        flash_erase(f, i.at);
    else
        flash_program(f, i.at, i.value);
}

bool job_run(const struct job *j, struct flash *f, uint32_t allowance, uint32_t *steps)
{
    *steps = 0;
    for (uint32_t i = 0; i < j->count; i++) {
        if (!is_step(f, j->list[i]))
            continue;
        if (*steps == allowance)
            return false;
        make(f, j->list[i]);
        ++*steps;
    }
    return true;
}
