#include "message_parts.h"

#include <string.h>

#include "../reference/numbers.h"

/* ---- parts */

/* The kind and the other numbers: mostly right. */
static uint8_t random_kind(void)
{
    static const uint8_t wrong[] = {0, 4, 255};
    return once_in(20) ? wrong[random_below(LENGTH(wrong))] : (uint8_t)(INSERT + random_below(3));
}

static Pair random_pair(bool may_be_none)
{
    Pair pair = {(uint16_t)one_of(&nodes), (uint32_t)one_of(&sequences)}, none = {0, 0};
    if (once_in(20))
        pair.node = 0;
    return may_be_none && once_in(3) ? none : pair;
}

static uint32_t line_of_kind(uint8_t kind)
{
    static const uint32_t lines[] = {0, 1, 7, 256, 65536, 4294967295};
    return kind == INSERT || once_in(20) ? lines[random_below(LENGTH(lines))] : 0;
}

static Names one_name(void)
{
    Names row = {1, {random_name()}};
    if (once_in(8))
        row.names[0] = deepened(row.names[0], DEPTH_LIMIT);
    return row;
}

MessageParts message_parts(void)
{
    MessageParts parts;
    parts.numbers.kind = random_kind();
    parts.numbers.epoch = random_pair(true);
    parts.numbers.author = random_pair(false);
    parts.numbers.line = line_of_kind(parts.numbers.kind);
    bool many = parts.numbers.kind == RENAME || once_in(20);
    parts.names = many ? random_names(once_in(4) ? NAMES : 3) : one_name();
    if (once_in(7))
        damage(&parts.names);
    return parts;
}

/* ---- fields */

static Field *add_field(Fields *row, uint8_t tag, size_t length)
{
    Field *field = &row->fields[row->count++];
    memset(field, 0, sizeof *field);
    field->tag = tag;
    field->told = (uint16_t)length;
    field->length = length;
    return field;
}

static void add_pair(Fields *row, uint8_t tag, Pair pair)
{
    Field *field = add_field(row, tag, PAIR_BYTES);
    to_bytes(field->content, 2, pair.node);
    to_bytes(field->content + 2, 4, pair.sequence);
}

static void add_name(Fields *row, const Name *name)
{
    Field *field = add_field(row, NAME_TAG, name->depth * TUPLE_BYTES);
    for (size_t i = 0; i < name->depth; i++)
        write_tuple(field->content + i * TUPLE_BYTES, name->tuples[i]);
}

Fields fields_of(const MessageParts *parts)
{
    Fields row = {0, {{0, 0, 0, {0}}}};
    add_field(&row, KIND_TAG, KIND_BYTES)->content[0] = parts->numbers.kind;
    add_pair(&row, EPOCH_TAG, parts->numbers.epoch);
    add_pair(&row, AUTHOR_TAG, parts->numbers.author);
    for (size_t i = 0; i < parts->names.count; i++)
        add_name(&row, &parts->names.names[i]);
    if (parts->numbers.kind == INSERT || parts->numbers.line != 0)
        to_bytes(add_field(&row, LINE_TAG, LINE_BYTES)->content, LINE_BYTES, parts->numbers.line);
    return row;
}

static void drop_field(Fields *row, size_t at)
{
    row->count--;
    for (size_t i = at; i < row->count; i++)
        row->fields[i] = row->fields[i + 1];
}

static void double_field(Fields *row, size_t at)
{
    for (size_t i = row->count++; i > at; i--)
        row->fields[i] = row->fields[i - 1];
}

/* The content is longer or shorter, and its head tells so. */
static void stretch_field(Field *field)
{
    static const int steps[] = {1, -1, TUPLE_BYTES, -TUPLE_BYTES, LONGEST_CONTENT, -LONGEST_CONTENT};
    int length = (int)field->length + steps[random_below(LENGTH(steps))];
    field->length = length < 0 ? 0 : length > LONGEST_CONTENT ? LONGEST_CONTENT : (size_t)length;
    field->told = (uint16_t)field->length;
}

void damage_fields(Fields *row)
{
    size_t at = random_below(row->count), other = random_below(row->count);
    Field *field = &row->fields[at], held = *field;
    switch (random_below(7)) {
    case 0: drop_field(row, at); break;
    case 1: double_field(row, at); break;
    case 2:
        *field = row->fields[other];
        row->fields[other] = held;
        break;
    case 3: field->tag = (uint8_t)random_below(7); break;
    case 4: field->told = (uint16_t)(field->told + (once_in(2) ? 1 : -1) * (once_in(2) ? 1 : TUPLE_BYTES)); break;
    case 5: field->told = (uint16_t)(field->told << 8 | field->told >> 8); break;
    default: stretch_field(field); break;
    }
}

/* ---- bytes */

Message message_of(const Fields *row)
{
    Message message = {0, {0}};
    for (size_t i = 0; i < row->count; i++) {
        const Field *field = &row->fields[i];
        uint8_t *at = message.bytes + message.length;
        at[0] = field->tag;
        to_bytes(at + 1, 2, field->told);
        memcpy(at + FIELD_HEAD_BYTES, field->content, field->length);
        message.length += FIELD_HEAD_BYTES + field->length;
    }
    return message;
}

/* Harmless on an empty message; the array has a byte to spare, since not every field is a name one tuple too deep. */
void damage_message(Message *message)
{
    static const uint8_t values[] = {0, 1, 2, 127, 128, 254, 255};
    if (message->length == 0)
        return;
    size_t at = random_below(message->length);
    uint8_t value = values[random_below(LENGTH(values))];
    switch (random_below(5)) {
    case 0: message->bytes[at] = value; break;
    case 1: message->bytes[at] = (uint8_t)(message->bytes[at] + (once_in(2) ? 1 : -1)); break;
    case 2: message->length = once_in(2) ? at : message->length - 1; break;
    case 3: message->bytes[message->length++] = value; break;
    default:
        memmove(message->bytes + at + 1, message->bytes + at, message->length++ - at);
        message->bytes[at] = value;
        break;
    }
}
