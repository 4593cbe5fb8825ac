/* The listing of a page, in plain C: see book.h. */
#ifndef TESTS_REFERENCE_LISTING_H
#define TESTS_REFERENCE_LISTING_H

#include <stdio.h>

#include "book.h"

/* The tuples of a name, as they stand in a listing. */
void list_name(const Name *name, FILE *out);

/* Writes what document 01 says for these bytes: the whole listing, or the line of a refusal. */
void list_page(const uint8_t *bytes, size_t length, FILE *out);

/* The same of a page with slots of another limit: see book.h. */
void list_page_of(size_t limit, const uint8_t *bytes, size_t length, FILE *out);

#endif
