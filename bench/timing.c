/* For clock_gettime, which is not in C99. */
#define _POSIX_C_SOURCE 200809L

#include "timing.h"

#include <stdlib.h>
#include <time.h>

enum { ROUND_NANOSECONDS = 50000 /* at least, so that reading the clock counts for little */ };

/* The time that this program had a processor: other programs on the machine do not count. */
static double now(void)
{
    struct timespec time;
    clock_gettime(CLOCK_PROCESS_CPUTIME_ID, &time);
    return 1e9 * (double)time.tv_sec + (double)time.tv_nsec;
}

/* The first call, which brings the input near, is not timed. */
static double time_round(const Timed *timed)
{
    static Output output;
    timed->call(timed->input, &output);
    double start = now();
    for (size_t i = 0; i < timed->times; i++)
        timed->call(timed->input, &output);
    return now() - start;
}

static void choose_times(Timed *timed)
{
    timed->times = 1;
    while (time_round(timed) < ROUND_NANOSECONDS)
        timed->times *= 2;
}

static int compare_times(const void *a, const void *b)
{
    double x = *(const double *)a, y = *(const double *)b;
    return (x > y) - (x < y);
}

static void take_median(Timed *timed)
{
    qsort(timed->rounds, ROUNDS, sizeof timed->rounds[0], compare_times);
    timed->nanoseconds = timed->rounds[ROUNDS / 2] / (double)timed->times;
}

void time_all(Timed *timed, size_t count)
{
    for (size_t i = 0; i < count; i++)
        choose_times(&timed[i]);
    for (size_t round = 0; round < ROUNDS; round++)
        for (size_t i = 0; i < count; i++)
            timed[i].rounds[round] = time_round(&timed[i]);
    for (size_t i = 0; i < count; i++)
        take_median(&timed[i]);
}
