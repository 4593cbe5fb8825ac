/* Random arguments of the calls on messages, near the edges: parts with names as random_names.h says, now and then one of them
 * wrong. The messages that are read are made of such parts field by field, and then often damaged: a field doubled, dropped,
 * swapped or with another head, a byte changed, added or left out, or the end cut off. */
#ifndef TESTS_LIBRARY_MESSAGE_PARTS_H
#define TESTS_LIBRARY_MESSAGE_PARTS_H

#include "../reference/messages.h"
#include "random_names.h"

typedef struct {
    Numbers numbers;
    Names names;
} MessageParts;

MessageParts message_parts(void);

enum {
    LONGEST_CONTENT = (DEPTH_LIMIT + 1) * TUPLE_BYTES,
    MOST_FIELDS = 3 + NAMES + 2 /* one that was not there among them */
};

/* A field, with the length that its head tells. */
typedef struct {
    uint8_t tag;
    uint16_t told;
    size_t length;
    uint8_t content[LONGEST_CONTENT];
} Field;

typedef struct {
    size_t count;
    Field fields[MOST_FIELDS];
} Fields;

Fields fields_of(const MessageParts *parts);
void damage_fields(Fields *row);

typedef struct {
    size_t length;
    uint8_t bytes[MOST_FIELDS * (FIELD_HEAD_BYTES + LONGEST_CONTENT)];
} Message;

Message message_of(const Fields *row);
void damage_message(Message *message);

#endif
