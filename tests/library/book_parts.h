/* Random arguments of the calls on books, near the edges: names as random_names.h says, names that begin with what a rename
 * gives; now and then something broken, out of order, too deep or not fresh. Each call's begin with choose_numbers. */
#ifndef TESTS_LIBRARY_BOOK_PARTS_H
#define TESTS_LIBRARY_BOOK_PARTS_H

#include "../reference/renames.h"
#include "random_names.h"

/* A page and a name to insert or remove. */
typedef struct {
    Names page;
    Name name;
} EditParts;

EditParts edit_parts(bool insert);

/* A page and a gap, which may lie beyond it; the author's node. */
typedef struct {
    Names page;
    uint32_t gap;
    uint16_t node;
} GapParts;

GapParts gap_parts(void);

/* A page, a log, and an author. */
typedef struct {
    Names page;
    Names log;
    uint16_t node;
    uint32_t sequence;
} RenameParts;

RenameParts rename_parts(bool back);

/* The same with a log of so many names long_logged_name(0), long_logged_name(1), .. , which may be none or too many. */
typedef struct {
    Names page;
    size_t logged;
    uint16_t node;
    uint32_t sequence;
} LongParts;

LongParts long_parts(bool back);
Name long_logged_name(size_t k);

#endif
