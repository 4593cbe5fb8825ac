/* Random arguments of the calls on epoch tables, near the edges: few numbers, so that epochs meet in node, sequence or
 * count; chains, stars and what lies between; small tables and full ones; now and then something broken, an index that
 * is not there, or a count that may not be. */
#ifndef TESTS_LIBRARY_EPOCH_PARTS_H
#define TESTS_LIBRARY_EPOCH_PARTS_H

#include "../reference/epochs.h"
#include "edges.h"

enum {
    ENTRIES = ENTRY_LIMIT + 2 /* the most entries of a row */
};

/* A row of entries: a table where nothing breaks its layout. */
typedef struct {
    size_t count;
    Entry entries[ENTRIES];
} Row;

/* What the arguments of each call begin with: their numbers. */
void choose_epoch_numbers(void);

/* Damaged once in so many times. */
Row maybe_damaged_table(size_t times);

/* A pair of these numbers, if a few trials find one that is not listed, or else of a sequence next to them. */
Entry random_epoch(const Row *row, uint16_t parent);

/* An epoch that is not listed, or now and then one that is. */
Entry epoch_to_add(const Row *row);

/* An index of the table, or now and then one that is not there. */
uint32_t random_index(const Row *row);

/* The count to add, or now and then one at the edges, mostly outside 1..256. */
uint16_t maybe_bad_count(uint16_t count);

#endif
