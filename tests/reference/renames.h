/* Renaming and taking back, in plain C: see book.h. */
#ifndef TESTS_REFERENCE_RENAMES_H
#define TESTS_REFERENCE_RENAMES_H

#include "book.h"

/* A log and the author of a rename: "Log r0 < .. < r(n-1), author (A, s)". A log has at least one slot. */
typedef struct {
    Page log;
    uint16_t node;
    uint32_t sequence;
} Renaming;

/* What a name becomes, which may be too deep, and the words of 01 that say so. */
typedef struct {
    Name name;
    const char *by;
} Renamed;

/* "N(k) = the name (p, A, s, k)", and for k = -1 the tuple (p, A, s, -1). */
Name new_row(const Renaming *renaming, int32_t k);

/* "Renaming one name" and "Taking it back". */
Renamed rename_name(const Renaming *renaming, const Name *x);
Renamed take_name_back(const Renaming *renaming, const Name *c);

/* "Fresh means: no name in page or log has (A, s) as node and sequence of its first tuple." */
bool is_fresh(const Page *page, const Renaming *renaming);

/* Page and log are bytes as they come; out has room bytes. */
Outcome rename_page(const uint8_t *page, size_t page_length, const uint8_t *log, size_t log_length, uint16_t node,
                    uint32_t sequence, uint8_t *out, size_t room);
Outcome take_page_back(const uint8_t *page, size_t page_length, const uint8_t *log, size_t log_length, uint16_t node,
                       uint32_t sequence, uint8_t *out, size_t room);

#endif
