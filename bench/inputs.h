/* The inputs of the calls that are timed. None of them is refused. */
#ifndef BENCH_INPUTS_H
#define BENCH_INPUTS_H

#include "calls.h"

/* Books, logs and messages have names of one tuple, of 5 to 8 or up to the limit; tables are a star, or a chain. A form is
 * that of a fresh book, in which no name is another's next, of a renamed one, or of one that was renamed and to which one
 * line in four was added since. */
typedef enum {
    SHALLOW,
    DEEP,
    DEEPEST,
    SHAPES,
    STAR = SHALLOW,
    CHAIN = DEEP,
    FRESH = SHALLOW,
    RENAMED = DEEP,
    ADDED_TO = DEEPEST
} Shape;

/* The first so many are those that an operation is timed on. */
size_t shapes_of(Operation operation);

/* The tuples that all names of an input begin with, so that comparing two goes that far, and the most that one has. Every
 * name has more than the shared ones. */
typedef struct {
    size_t shared, deepest;
} Depths;

Depths depths_of(Operation operation, Shape shape);

/* So many lines or names: a log has as many as the page that is renamed, of whose names half are logged and half stand
 * between two logged ones. Insert and add epoch come to so many lines or entries. */
void make_input(Operation operation, Shape shape, size_t size, Input *input);

/* Makes the page of an input a log of the same names. */
void clear_lines(Part *page);

#endif
