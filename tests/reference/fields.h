/* "Fields of one-byte tag, two-byte length, content", in plain C: what messages and forms are made of. See book.h. */
#ifndef TESTS_REFERENCE_FIELDS_H
#define TESTS_REFERENCE_FIELDS_H

#include "book.h"

enum {
    FIELD_HEAD_BYTES = 3,
    LINE_BYTES = 4,
    LONGEST_NAME_FIELD = FIELD_HEAD_BYTES + DEPTH_LIMIT * TUPLE_BYTES
};

/* Bytes that stand somewhere: those that are not read yet, or the content of a field. */
typedef struct {
    const uint8_t *bytes;
    size_t length;
} Span;

/* Each takes the next field, which must have this tag, and gives what is wrong with it, in words, or NULL: its content,
 * whatever that is; and a content of so many bytes. */
const char *take_field(Span *rest, uint8_t tag, Span *content);
const char *take_bytes(Span *rest, uint8_t tag, size_t length, const uint8_t **content);

/* "a name's tuples, 12 bytes each": what is wrong with the content of such a field, or NULL. */
const char *read_content(Span content, Name *name);

/* What is being written; it has room for all that will be. */
typedef struct {
    size_t length;
    uint8_t *bytes;
} Written;

void put_number(Written *written, size_t length, uint32_t number);
void put_head(Written *written, uint8_t tag, size_t length);
void put_name(Written *written, uint8_t tag, const Name *name);

/* "8: output shorter than the result"; otherwise writes all of it. The count is that of the bytes. */
Outcome write_out(const Written *written, uint8_t *out, size_t room);

#endif
