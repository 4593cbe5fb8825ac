/* How long calls take. */
#ifndef BENCH_TIMING_H
#define BENCH_TIMING_H

#include "calls.h"

enum { ROUNDS = 61 };

/* A call that is timed on an input, and what came of it: nanoseconds of one call, the median over the rounds. */
typedef struct {
    Call call;
    const Input *input;
    size_t times; /* the calls of one round */
    double rounds[ROUNDS];
    double nanoseconds;
} Timed;

/* Each round times all of them, so that what disturbs the machine for a while disturbs all of them alike. */
void time_all(Timed *timed, size_t count);

#endif
