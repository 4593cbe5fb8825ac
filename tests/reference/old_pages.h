/* Old pages, of names of at most eight tuples, and their conversions, in plain C: see book.h. */
#ifndef TESTS_REFERENCE_OLD_PAGES_H
#define TESTS_REFERENCE_OLD_PAGES_H

#include "book.h"

enum {
    OLD_DEPTH_LIMIT = 8, /* "a row of at most eight tuples" */
    OLD_SLOT_BYTES = SLOT_BYTES_OF(OLD_DEPTH_LIMIT), /* "A slot is 104 bytes" */
    OLD_PAGE_BYTES = PAGE_BYTES_OF(OLD_DEPTH_LIMIT)  /* "26,624 bytes at most" */
};

/* The page is bytes as they come; out has room bytes. The count is that of the slots. */
Outcome from_old(const uint8_t *old, size_t length, uint8_t *out, size_t room);
Outcome to_old(const uint8_t *page, size_t length, uint8_t *out, size_t room);

#endif
