#include "chance.h"

/* splitmix64 */
static uint64_t random_state;

void start_random(uint64_t seed)
{
    random_state = seed;
}

uint64_t random_word(void)
{
    uint64_t z = random_state += 0x9e3779b97f4a7c15u;
    z = (z ^ (z >> 30)) * 0xbf58476d1ce4e5b9u;
    z = (z ^ (z >> 27)) * 0x94d049bb133111ebu;
    return z ^ (z >> 31);
}

size_t random_below(size_t limit)
{
    return (size_t)(random_word() % limit);
}
