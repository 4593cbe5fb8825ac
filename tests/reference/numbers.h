/* Numbers in bytes, and their order: see book.h. */
#ifndef TESTS_REFERENCE_NUMBERS_H
#define TESTS_REFERENCE_NUMBERS_H

#include <stddef.h>
#include <stdint.h>

/* "All numbers are big-endian": a number of so many bytes, at most four. */
uint32_t from_bytes(const uint8_t *bytes, size_t count);
void to_bytes(uint8_t *bytes, size_t count, uint32_t number);

/* Below 0, 0 or above 0, as a is smaller than b, equal to it or greater. */
int compare_numbers(int64_t a, int64_t b);

#endif
