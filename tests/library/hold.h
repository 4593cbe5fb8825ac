/*
 * Holds the library to the plain C of tests/reference: each function here calls both with the same arguments and compares
 * the answer, the count, the single numbers that are given, and every byte that the library was lent.
 */
#ifndef TESTS_LIBRARY_HOLD_H
#define TESTS_LIBRARY_HOLD_H

#include "../reference/epochs.h"
#include "../reference/groups.h"
#include "../reference/messages.h"
#include "../reference/old_pages.h"

enum {
    /* Of an input: two groups, each of as many slots as a field has room for line numbers. */
    MOST_BYTES = 2 * (LONGEST_NAME_FIELD + LENGTH_FIELD + FIELD_HEAD_BYTES + MOST_LINES * LINE_BYTES),
    MOST_ROOM = LONGEST_FORM + 2 * SLOT_BYTES /* of an output */
};

/* An input, or what a call has written. */
typedef struct {
    size_t length;
    uint8_t bytes[MOST_BYTES];
} Bytes;

/* Each gives the answer and the count of the plain C, and counts the case. An output has room bytes. */
Outcome hold_check_page(const Bytes *page);
Outcome hold_check_log(const Bytes *log);
Outcome hold_check_epochs(const Bytes *table);
Outcome hold_insert(const Bytes *page, const Bytes *slot, size_t room);
Outcome hold_remove(const Bytes *page, const Bytes *slot, size_t room);
Outcome hold_new_name(const Bytes *page, size_t gap, uint16_t node, uint32_t sequence, size_t room);
Outcome hold_rename(const Bytes *page, const Bytes *log, uint16_t node, uint32_t sequence, size_t room);
Outcome hold_take_back(const Bytes *page, const Bytes *log, uint16_t node, uint32_t sequence, size_t room);
Outcome hold_from_old(const Bytes *old, size_t room);
Outcome hold_to_old(const Bytes *page, size_t room);
Outcome hold_next_step(const Bytes *table, size_t current, uint8_t *step, uint32_t *index);
Outcome hold_add_epoch(const Bytes *table, size_t parent, uint16_t node, uint32_t sequence, uint16_t count,
                       size_t room);
Outcome hold_write_message(const Numbers *numbers, const Bytes *names, size_t room);
Outcome hold_read_message(const Bytes *message, Numbers *numbers, size_t room);
Outcome hold_group(const Bytes *page, size_t room);
Outcome hold_ungroup(const Bytes *form, size_t room);
Outcome hold_group_insert(const Bytes *form, const Bytes *slot, size_t room);
Outcome hold_group_remove(const Bytes *form, const Bytes *slot, size_t room);

/* Follows the next step from an entry until one stays or is refused, gives the answer of the first, and holds the indices
 * passed to those of the plain C. */
int hold_walk(const Bytes *table, size_t current, Path *walked);

/* Convert a page or a form and, where that is accepted, the outcome back, which must have the same bytes; give the outcome of
 * the first. */
Outcome hold_old_and_back(const Bytes *page);
Outcome hold_new_and_back(const Bytes *old);
Outcome hold_group_and_back(const Bytes *page);
Outcome hold_ungroup_and_back(const Bytes *form);

/* Holds a page and a form to each other: grouping the one gives the other, and ungrouping the other gives the one. */
void hold_alike(const Bytes *page, const Bytes *form);

/* Holds a number that belongs to the last call to what it must be. */
void hold_number(const char *what, uint64_t is, uint64_t must);

/* The first bytes of the output of the last call, as the library left them; and how many bytes after those are not as they
 * were before it. */
void take_output(Bytes *taken, size_t length);
size_t changed_after(size_t length);

/* How many cases were held, and how many numbers or outputs differed in them. */
size_t cases_held(void);
size_t differences_found(void);

/* Prints how often each answer of each call was met, and each way in which a call comes to what it gives. Whether no case
 * differed, and each of those that 01 and 02 have was met at least so often. */
bool tell_what_was_met(size_t least);

#endif
