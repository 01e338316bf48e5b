#include "random.h"

static uint64_t state;

void start_random(uint64_t seed)
{
    state = seed;
}

uint64_t random_word(void)
{
    state += 0x9e3779b97f4a7c15u;
    uint64_t word = state;
    word = (word ^ word >> 30) * 0xbf58476d1ce4e5b9u;
    word = (word ^ word >> 27) * 0x94d049bb133111ebu;
    return word ^ word >> 31;
}

uint64_t below(uint64_t limit)
{
    return random_word() % limit;
}

uint64_t between(uint64_t low, uint64_t high)
{
    return low + below(high - low + 1);
}

int one_in(uint64_t count)
{
    return below(count) == 0;
}
