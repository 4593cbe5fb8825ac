/* Random numbers that come again from the same start, for the tests' inputs. */
#ifndef TESTS_REFERENCE_CHANCE_H
#define TESTS_REFERENCE_CHANCE_H

#include <stddef.h>
#include <stdint.h>

void start_random(uint64_t seed);
uint64_t random_word(void);

/* One of 0 .. limit - 1. */
size_t random_below(size_t limit);

#endif
