/*
 * Names, slots, pages and logs of a line book, in plain C: a second implementation of document 01, with what document 02 has
 * changed, that the proved one is held against. It is written from these alone; what stands in quotation marks is 01's, or
 * 02's where that is said.
 */
#ifndef TESTS_REFERENCE_BOOK_H
#define TESTS_REFERENCE_BOOK_H

#include <stdbool.h>
#include <stddef.h>
#include <stdint.h>

/* A slot and a page of names of at most so many tuples; 02, P8: "16 tuples after the same first eight bytes". */
#define SLOT_BYTES_OF(limit) (HEAD_BYTES + (limit) * TUPLE_BYTES)
#define PAGE_BYTES_OF(limit) (SLOT_LIMIT * SLOT_BYTES_OF(limit))

enum {
    DEPTH_LIMIT = 16, /* 02, P8: "Raise the depth limit to sixteen." Where 01 says eight, it is this. */
    TUPLE_BYTES = 12,
    HEAD_BYTES = 8, /* "depth 1..8, three zero bytes, line number" */
    SLOT_LIMIT = 256, /* "A page is 0..256 slots" */
    SLOT_BYTES = SLOT_BYTES_OF(DEPTH_LIMIT), /* 02, P8: "A slot becomes 200 bytes" */
    PAGE_BYTES = PAGE_BYTES_OF(DEPTH_LIMIT), /* 02, P8: "a page is at most 51,200 bytes" */
    LONGEST_ROW = DEPTH_LIMIT + 1 + DEPTH_LIMIT /* two names and a marker: no rule of 01 makes more */
};

/* The numbers of "What comes back". */
enum {
    ACCEPTED = 0,
    PAGE_LAYOUT = 1,
    PAGE_NOT_RISING = 2,
    LOG_BROKEN = 3,
    NO_AUTHOR = 4,
    NOT_FRESH = 5,
    TOO_DEEP = 6,
    BACK_NOT_RISING = 7,
    OUTPUT_SHORT = 8,
    NAME_PRESENT = 9,
    NAME_ABSENT = 10,
    PAGE_FULL = 11,
    NO_NEW_NAME = 12,
    TABLE_LAYOUT = 13, /* 02, P1: of adding also "13 (the given count)" */
    NO_EPOCH = 14,
    MALFORMED = 15,
    GAP_BEYOND = 16,
    EPOCH_LISTED = 17,
    TABLE_FULL = 18
};

typedef struct {
    uint16_t position;
    uint16_t node;
    uint32_t sequence;
    int32_t offset;
} Tuple;

/* A row of tuples: a name where is_name says so, a part of one, or a result that may be too deep. */
typedef struct {
    size_t depth;
    Tuple tuples[LONGEST_ROW];
} Name;

typedef struct {
    uint32_t line;
    Name name;
} Slot;

typedef struct {
    size_t count;
    Slot slots[SLOT_LIMIT];
} Page;

/* What every call that writes gives: "accepted; with the count of slots, entries or bytes written", or a refusal, which
 * "reports count 0 [..] and writes nothing". */
typedef struct {
    int answer;
    size_t count;
} Outcome;

extern const Tuple low_marker;  /* m */
extern const Tuple high_marker; /* M */

/* Below 0, 0 or above 0, as a is smaller than b, equal to it or greater. */
int compare_tuples(Tuple a, Tuple b);
int compare_names(const Name *a, const Name *b);

bool is_ordinary(Tuple t);
bool is_marker(Tuple t);
bool is_name(const Name *name);

/* The row of one tuple. */
Name row_of(Tuple t);

/* "a·b means the tuples of a, then those of b." Together they are at most LONGEST_ROW. */
Name joined(const Name *a, const Name *b);

/* Whether a row begins with all tuples of another one, and the tuples after those. */
bool begins_with(const Name *name, const Name *start);
Name tuples_after(const Name *name, const Name *start);

/* Read and write TUPLE_BYTES, whatever they say. */
Tuple read_tuple(const uint8_t *bytes);
void write_tuple(uint8_t *bytes, Tuple t);

/* Reads one slot of SLOT_BYTES; false where it breaks its layout, and the slot read then means nothing. */
bool read_slot(const uint8_t *bytes, Slot *slot);

/* Writes SLOT_BYTES. Any tuples are written, a name or not; the depth is at most DEPTH_LIMIT. */
void write_slot(uint8_t *bytes, const Slot *slot);

/* "strictly rising names" */
bool names_rise(const Page *page);

/* Whether no name has more than so many tuples: "6: some result needs more than eight tuples". */
bool names_fit(const Page *page, size_t limit);

/* ACCEPTED or PAGE_LAYOUT, of a slot that is given alone. */
int check_slot(const uint8_t *bytes, size_t length);

/* ACCEPTED, PAGE_LAYOUT or PAGE_NOT_RISING. */
int check_page(const uint8_t *bytes, size_t length);

/* ACCEPTED or LOG_BROKEN. */
int check_log(const uint8_t *bytes, size_t length);

/* Reads a page that keeps its layout. */
void read_page(const uint8_t *bytes, size_t length, Page *page);

/* "8: output shorter than the result"; otherwise writes all slots of the page, "and nothing after that". */
Outcome write_page(const Page *page, uint8_t *out, size_t room);

/* The same of slots of another limit, which is at most DEPTH_LIMIT. */
bool read_slot_of(size_t limit, const uint8_t *bytes, Slot *slot);
void write_slot_of(size_t limit, uint8_t *bytes, const Slot *slot);
int check_page_of(size_t limit, const uint8_t *bytes, size_t length);
void read_page_of(size_t limit, const uint8_t *bytes, size_t length, Page *page);
Outcome write_page_of(size_t limit, const Page *page, uint8_t *out, size_t room);

/* A refusal. */
Outcome refused(int answer);

#endif
