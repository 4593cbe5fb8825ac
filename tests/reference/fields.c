#include "fields.h"

#include <string.h>

#include "numbers.h"

/* ---- reading */

const char *take_field(Span *rest, uint8_t tag, Span *content)
{
    if (rest->length < FIELD_HEAD_BYTES)
        return "cut before a field's content";
    if (rest->bytes[0] != tag)
        return "another tag";
    content->length = from_bytes(rest->bytes + 1, 2);
    content->bytes = rest->bytes + FIELD_HEAD_BYTES;
    rest->bytes += FIELD_HEAD_BYTES;
    rest->length -= FIELD_HEAD_BYTES;
    if (content->length > rest->length)
        return "a length past the end";
    rest->bytes += content->length;
    rest->length -= content->length;
    return NULL;
}

const char *take_bytes(Span *rest, uint8_t tag, size_t length, const uint8_t **content)
{
    Span field;
    const char *wrong = take_field(rest, tag, &field);
    if (wrong != NULL)
        return wrong;
    *content = field.bytes;
    return field.length == length ? NULL : "a number of another length";
}

const char *read_content(Span content, Name *name)
{
    if (content.length % TUPLE_BYTES != 0 || content.length < TUPLE_BYTES || content.length > DEPTH_LIMIT * TUPLE_BYTES)
        return "a name of another length";
    name->depth = content.length / TUPLE_BYTES;
    for (size_t i = 0; i < name->depth; i++)
        name->tuples[i] = read_tuple(content.bytes + i * TUPLE_BYTES);
    return is_name(name) ? NULL : "a bad name";
}

/* ---- writing */

void put_number(Written *written, size_t length, uint32_t number)
{
    to_bytes(written->bytes + written->length, length, number);
    written->length += length;
}

/* "Fields of one-byte tag, two-byte length, content" */
void put_head(Written *written, uint8_t tag, size_t length)
{
    put_number(written, 1, tag);
    put_number(written, 2, (uint32_t)length);
}

void put_name(Written *written, uint8_t tag, const Name *name)
{
    put_head(written, tag, name->depth * TUPLE_BYTES);
    for (size_t i = 0; i < name->depth; i++) {
        write_tuple(written->bytes + written->length, name->tuples[i]);
        written->length += TUPLE_BYTES;
    }
}

Outcome write_out(const Written *written, uint8_t *out, size_t room)
{
    if (room < written->length)
        return refused(OUTPUT_SHORT);
    if (written->length > 0)
        memcpy(out, written->bytes, written->length);
    Outcome outcome = {ACCEPTED, written->length};
    return outcome;
}
