/* Insert, remove and new names, in plain C: see book.h. */
#ifndef TESTS_REFERENCE_EDITS_H
#define TESTS_REFERENCE_EDITS_H

#include "book.h"

/* The page and the slot are bytes as they come; out has room bytes. */
Outcome insert_slot(const uint8_t *page, size_t page_length, const uint8_t *slot, size_t slot_length, uint8_t *out,
                    size_t room);
Outcome remove_slot(const uint8_t *page, size_t page_length, const uint8_t *slot, size_t slot_length, uint8_t *out,
                    size_t room);

/* The answer, and where that is ACCEPTED the new name. */
int new_name(const uint8_t *page, size_t page_length, size_t gap, uint16_t node, uint32_t sequence, Name *made);

#endif
