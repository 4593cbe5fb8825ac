/* Messages, in plain C: see book.h. */
#ifndef TESTS_REFERENCE_MESSAGES_H
#define TESTS_REFERENCE_MESSAGES_H

#include "fields.h"

enum {
    KIND_BYTES = 1,
    PAIR_BYTES = 6, /* "node and sequence in 6 bytes" */
    NUMBERS_BYTES = 3 * FIELD_HEAD_BYTES + KIND_BYTES + 2 * PAIR_BYTES, /* what every message begins with */
    LONGEST_MESSAGE = NUMBERS_BYTES + SLOT_LIMIT * LONGEST_NAME_FIELD /* 02, P8: "the longest message is 49,942 bytes" */
};

enum { KIND_TAG = 1, EPOCH_TAG = 2, AUTHOR_TAG = 3, NAME_TAG = 4, LINE_TAG = 5 };

/* "kind, one byte (1 insert, 2 remove, 3 rename)" */
enum { INSERT = 1, REMOVE = 2, RENAME = 3 };

/* An epoch or an author: "node and sequence". */
typedef struct {
    uint16_t node;
    uint32_t sequence;
} Pair;

/* What a message says, its names apart. */
typedef struct {
    uint8_t kind;
    Pair epoch;
    Pair author;
    uint32_t line;
} Numbers;

/* Why the answer is MALFORMED, in words; NULL where it is not. */
const char *wrong_with_message(const uint8_t *message, size_t length);
const char *wrong_with_parts(const Numbers *numbers, const uint8_t *slots, size_t slots_length);

/* Message and slots are bytes as they come; out has room bytes. */
Outcome read_message(const uint8_t *message, size_t length, Numbers *numbers, uint8_t *out, size_t room);
Outcome write_message(const Numbers *numbers, const uint8_t *slots, size_t slots_length, uint8_t *out, size_t room);

#endif
