/* Random numbers near the edges, and rows of a few of them, so that they meet. */
#ifndef TESTS_LIBRARY_EDGES_H
#define TESTS_LIBRARY_EDGES_H

#include <stdbool.h>
#include <stddef.h>
#include <stdint.h>

#include "../reference/chance.h"

enum {
    FEW = 3 /* the most numbers of each sort that stand in one case */
};

#define LENGTH(row) (sizeof(row) / sizeof *(row))

/* Once in so many times. */
bool once_in(size_t times);

/* The numbers of one sort that stand in a case. */
typedef struct {
    size_t count;
    int64_t numbers[FEW];
} Few;

Few choose_few(const int64_t *all, size_t length);
int64_t one_of(const Few *few);

/* All nodes and sequences, those at the edges among them. */
extern const int64_t all_nodes[6], all_sequences[7];

#endif
