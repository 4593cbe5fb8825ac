/* Random names near the edges: few numbers, so that names meet, nest and follow each other. */
#ifndef TESTS_LIBRARY_RANDOM_NAMES_H
#define TESTS_LIBRARY_RANDOM_NAMES_H

#include "../reference/book.h"
#include "edges.h"

enum {
    NAMES = 8 /* the most names of a row */
};

typedef struct {
    size_t count;
    Name names[4 * NAMES];
} Names;

/* Begins a case: its numbers, and no name has come. */
void choose_numbers(void);

/* The case's nodes and sequences, and tuples of its numbers. */
extern Few nodes, sequences;
Tuple random_ordinary(void);
Tuple random_marker(void);

/* The names that have come in this case: new ones are made from them. */
void remember(Name name);
const Name *pooled_name(void);

/* Rows that may be no name: a·b, or a alone where that would be far too deep; a name with its last offset one higher or lower;
 * name·m·tail, one below the name·M·tail, and others that have a marker where two names are joined. */
Name followed(const Name *a, const Name *b);
Name shifted(const Name *name);
Name joined_by_marker(const Name *name, const Name *tail);

/* Any name of this case's numbers; a name with tuples added, up to so many or one fewer; and one that has at most so many. */
Name random_name(void);
Name deepened(Name name, size_t limit);
Name shortened(Name name, size_t limit);

/* Names in rising order; and such of which none has more than so many tuples, and some have as many. */
Names random_names(size_t most);
Names names_within(size_t limit, size_t most);
void put_in_order(Names *row);
void keep_at_most(Names *row, size_t most);

/* Something that a name must not have, and a broken name or the order of two broken; a few of these are harmless. */
void break_name(Name *name);
void damage(Names *row);
Name maybe_broken_name(void);
Names maybe_damaged_names(size_t most);

#endif
