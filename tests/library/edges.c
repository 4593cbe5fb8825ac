#include "edges.h"

bool once_in(size_t times)
{
    return random_below(times) == 0;
}

Few choose_few(const int64_t *all, size_t length)
{
    Few few = {1 + random_below(FEW), {0}};
    for (size_t i = 0; i < few.count; i++)
        few.numbers[i] = all[random_below(once_in(2) ? length : length / 2)];
    return few;
}

int64_t one_of(const Few *few)
{
    return few->numbers[random_below(few->count)];
}

const int64_t all_nodes[] = {2, 1, 3, 256, 65534, 65535};
const int64_t all_sequences[] = {0, 1, 2, 11, 2147483648, 4294967294, 4294967295};
