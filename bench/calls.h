/* The calls of the header with arguments of one form, so that they can be timed alike: the library's and those of C in
 * place. */
#ifndef BENCH_CALLS_H
#define BENCH_CALLS_H

#include "../tests/reference/messages.h"

typedef enum {
    CHECK_PAGE,
    CHECK_LOG,
    INSERT_SLOT,
    REMOVE_SLOT,
    NEW_NAME,
    RENAME_PAGE,
    TAKE_BACK,
    TAKE_BACK_EDITED,
    TAKE_BACK_MARKED,
    TAKE_BACK_MARKED_LOG,
    WRITE_MESSAGE,
    READ_MESSAGE,
    FROM_OLD,
    TO_OLD,
    GROUP_PAGE,
    UNGROUP_FORM,
    GROUP_INSERT,
    GROUP_REMOVE,
    CHECK_EPOCHS,
    NEXT_STEP,
    ADD_EPOCH,
    OPERATIONS
} Operation;

/* Who renames, makes names and adds epochs, everywhere, and how many names the log of such an epoch has. No name and no
 * epoch of an input is this author's. */
enum { AUTHOR_NODE = 9, AUTHOR_SEQUENCE = 1, AUTHOR_NAMES = 40 };

typedef struct {
    size_t length;
    uint8_t bytes[PAGE_BYTES];
} Part;

typedef struct {
    Part first;   /* the page, log, table, message, form or names */
    Part second;  /* the slot or the log, where a call takes one beside the page or form */
    size_t index; /* the gap, the current epoch or the parent */
} Input;

/* There is room for a copy of both parts of an input. */
typedef struct {
    uint8_t bytes[2 * PAGE_BYTES];
    Numbers numbers;
    uint8_t step;
    uint32_t index;
} Output;

/* Gives what the call of the header gives. */
typedef uint64_t (*Call)(const Input *input, Output *output);

extern const Call library_calls[OPERATIONS], in_place_calls[OPERATIONS];

#endif
