#include "random.h"

static uint64_t state;

void random_seed(uint64_t seed)
{
    state = seed;
}

static uint64_t next(void)
{
    state += UINT64_C(0x9E3779B97F4A7C15);
    uint64_t z = state;
    z = (z ^ z >> 30) * UINT64_C(0xBF58476D1CE4E5B9);
    z = (z ^ z >> 27) * UINT64_C(0x94D049BB133111EB);
    return z ^ z >> 31;
}

uint32_t random_below(uint32_t limit)
{
    return (uint32_t)((next() >> 32) * limit >> 32);
}

uint32_t random_between(uint32_t first, uint32_t last)
{
    return first + random_below(last - first + 1);
}

bool random_chance(uint32_t in_hundred)
{
    return random_below(100) < in_hundred;
}
