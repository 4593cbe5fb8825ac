/* The epoch table and the epoch tree, in plain C: see book.h. */
#ifndef TESTS_REFERENCE_EPOCHS_H
#define TESTS_REFERENCE_EPOCHS_H

#include "book.h"

enum {
    ENTRY_BYTES = 10,  /* "node u16, sequence u32, parent index u16"; 02, P1: "Entries become 10 bytes" */
    ENTRY_LIMIT = 32,  /* "An epoch table is 1..32 entries" */
    COUNT_LIMIT = 256, /* 02, P1: "the number of names in its rename's log (u16, 1..256)" */
    TABLE_BYTES = ENTRY_LIMIT * ENTRY_BYTES
};

typedef struct {
    uint16_t node;
    uint32_t sequence;
    uint16_t parent;
    uint16_t count; /* 02, P1: "the count after the parent index" */
} Entry;

typedef struct {
    size_t count;
    Entry entries[ENTRY_LIMIT];
} Table;

/* Epochs by their indices: "An epoch's path runs from entry 0 to it", or the way from one to another. */
typedef struct {
    size_t count;
    size_t indices[ENTRY_LIMIT];
} Path;

/* "stay, up to the parent, or down to a child, given by index" */
enum { STAY = 0, UP = 1, DOWN = 2 };

/* What the question of the next step gives. The index is 0 for STAY; a refusal has "no name, index or step". */
typedef struct {
    int answer;
    int step;
    size_t index;
} NextStep;

/* Read and write ENTRY_BYTES, whatever they say. */
Entry read_entry(const uint8_t *bytes);
void write_entry(uint8_t *bytes, Entry entry);

/* Why the table breaks its layout, in words; NULL where it does not. */
const char *wrong_with_table(const uint8_t *bytes, size_t length);

/* ACCEPTED or TABLE_LAYOUT. */
int check_table(const uint8_t *bytes, size_t length);

/* Reads a table that keeps its layout. */
void read_table(const uint8_t *bytes, size_t length, Table *table);

/* "Following it reaches the target and then stays, after exactly the number of edges between the two, at most 31": up to
 * the last epoch that the paths of both have, and down from there. Empty at the target. */
Path way_to_target(const Table *table, size_t current);

/* By what the target is above an epoch that is not the target, in words: what of their paths differs first, and whether
 * that goes against what would be asked next. */
const char *above_by(const Table *table, size_t current);

/* The tables are bytes as they come; out has room bytes. */
NextStep next_step(const uint8_t *bytes, size_t length, size_t current);
Outcome add_epoch(const uint8_t *bytes, size_t length, size_t parent, uint16_t node, uint32_t sequence, uint16_t count,
                  uint8_t *out, size_t room);

#endif
