/* Grouped names, in plain C: see book.h. What stands in quotation marks is 02's, P2. */
#ifndef TESTS_REFERENCE_GROUPS_H
#define TESTS_REFERENCE_GROUPS_H

#include "fields.h"

/* "tag 6 a name, tag 7 a length of two bytes, tag 8 the line numbers, four bytes each, group after group" */
enum { FIRST_NAME_TAG = 6, LENGTH_TAG = 7, LINES_TAG = 8 };

enum {
    LENGTH_BYTES = 2,
    LENGTH_FIELD = FIELD_HEAD_BYTES + LENGTH_BYTES,
    LAST_OFFSET = 2147483646, /* of an ordinary tuple */
    MOST_LINES = 65535 / LINE_BYTES, /* line numbers that a field has room for */
    /* 256 groups of one slot, each name of sixteen tuples: 52,992 bytes */
    LONGEST_FORM = SLOT_LIMIT * (LONGEST_NAME_FIELD + LENGTH_FIELD + FIELD_HEAD_BYTES + LINE_BYTES)
};

/* "the first name, a length and the line numbers in order": the line numbers stand in the form. */
typedef struct {
    Name first;
    size_t length;
    const uint8_t *lines;
} Group;

/* The name that is so many after this one: it differs "only in the last offset", and is one if that is not too high. */
Name name_after(const Name *name, size_t steps);

/* Whether b is the next name after a: they "differ only in the last offset", which is "one more". */
bool is_next(const Name *a, const Name *b);

/* Takes the next group of a form: NULL, or what is wrong with it. */
const char *take_group(Span *rest, Group *group);

/* Why the answer is MALFORMED, in words; NULL where it is not. */
const char *wrong_with_form(const uint8_t *form, size_t length);

/* ACCEPTED, MALFORMED, PAGE_NOT_RISING or PAGE_FULL. */
int check_form(const uint8_t *form, size_t length);

/* In which way the groups change by an insert or a remove that is accepted, in words. */
const char *way_of_insert(const uint8_t *form, size_t length, const uint8_t *slot);
const char *way_of_remove(const uint8_t *form, size_t length, const uint8_t *slot);

/* Page, form and slot are bytes as they come; out has room bytes. The count of the second is that of the slots, those of the
 * others that of the bytes. */
Outcome group_page(const uint8_t *page, size_t length, uint8_t *out, size_t room);
Outcome ungroup_form(const uint8_t *form, size_t length, uint8_t *out, size_t room);
Outcome insert_grouped(const uint8_t *form, size_t length, const uint8_t *slot, size_t slot_length, uint8_t *out,
                       size_t room);
Outcome remove_grouped(const uint8_t *form, size_t length, const uint8_t *slot, size_t slot_length, uint8_t *out,
                       size_t room);

#endif
