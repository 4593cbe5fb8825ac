/* Cases of one call on a message, and chains of them. */
#include <string.h>

#include "bytes.h"
#include "message_parts.h"
#include "sorts.h"

static Bytes names, message, again;

static void damage_names(void)
{
    static const size_t less[] = {1, SLOT_BYTES - 1, SLOT_BYTES, SLOT_BYTES + 1, MOST_BYTES};
    switch (random_below(3)) {
    case 0: spoil_slot(&names); break;
    case 1: cut_bytes(&names, less[random_below(LENGTH(less))]); break;
    default: damage_bytes(&names, SLOT_BYTES); break;
    }
}

void write_case(void)
{
    choose_numbers();
    MessageParts parts = message_parts();
    Fields fields = fields_of(&parts);
    make_log(&names, &parts.names);
    if (once_in(2))
        damage_names();
    hold_write_message(&parts.numbers, &names, room_for(message_of(&fields).length));
}

/* The first bytes of a message. */
static void hold_beginning(const Message *made, size_t length, size_t room)
{
    Numbers numbers;
    message.length = length;
    memcpy(message.bytes, made->bytes, length);
    hold_read_message(&message, &numbers, room);
}

void read_case(void)
{
    choose_numbers();
    MessageParts parts = message_parts();
    Fields fields = fields_of(&parts);
    if (once_in(3))
        damage_fields(&fields);
    Message made = message_of(&fields);
    if (once_in(4))
        damage_message(&made);
    hold_beginning(&made, made.length, room_for(parts.names.count * SLOT_BYTES));
}

void cuts_case(void)
{
    choose_numbers();
    MessageParts parts = message_parts();
    Fields fields = fields_of(&parts);
    Message made = message_of(&fields);
    for (size_t length = 0; length < made.length; length++)
        hold_beginning(&made, length, parts.names.count * SLOT_BYTES);
}

/* The message with one more field of a name, above those of a long page. */
static void read_one_more(void)
{
    Numbers numbers;
    Tuple above = {10, 2, 0, 0};
    uint8_t *at = message.bytes + message.length;
    at[0] = NAME_TAG;
    at[1] = 0;
    at[2] = TUPLE_BYTES;
    write_tuple(at + FIELD_HEAD_BYTES, above);
    message.length += FIELD_HEAD_BYTES + TUPLE_BYTES;
    hold_read_message(&message, &numbers, MOST_ROOM);
}

void many_case(void)
{
    static const size_t sizes[] = {0, 1, 2, 128, 255, 256, 256, 257};
    choose_numbers();
    size_t count = once_in(2) ? sizes[random_below(LENGTH(sizes))] : random_below(SLOT_LIMIT + 2);
    Name name = once_in(3) ? deepened(random_name(), DEPTH_LIMIT) : random_name();
    if (once_in(8))
        break_name(&name);
    fill_slots(&names, count, name);
    Numbers numbers = {RENAME, {0, 0}, {1, 1}, 0};
    size_t room = room_for(NUMBERS_BYTES + count * (FIELD_HEAD_BYTES + name.depth * TUPLE_BYTES));
    Outcome written = hold_write_message(&numbers, &names, room);
    take_output(&message, written.count);
    hold_read_message(&message, &numbers, names.length);
    if (written.answer == ACCEPTED)
        read_one_more();
}

/* ---- chains */

/* The parts of a message that is mostly accepted; now and then of a rename with 256 names, or with one too many. */
static Numbers make_parts(void)
{
    MessageParts parts;
    do
        parts = message_parts();
    while (parts.names.count == 0 || parts.numbers.author.node == 0);
    make_log(&names, &parts.names);
    if (parts.numbers.kind == RENAME && once_in(4))
        make_long_page(&names, long_count(), DEPTH_LIMIT, true);
    return parts.numbers;
}

static void read_damaged(void)
{
    Numbers numbers;
    copy_bytes(&message, &again);
    damage_bytes(&again, FIELD_HEAD_BYTES + TUPLE_BYTES);
    hold_read_message(&again, &numbers, PAGE_BYTES);
}

void message_chain(void)
{
    choose_numbers();
    Numbers numbers = make_parts();
    Outcome written = hold_write_message(&numbers, &names, LONGEST_MESSAGE);
    if (written.answer != ACCEPTED)
        return;
    take_output(&message, written.count);
    for (size_t i = random_below(6); i > 0; i--)
        read_damaged();
    Outcome read = hold_read_message(&message, &numbers, room_for(names.length));
    if (read.answer == ACCEPTED) {
        take_output(&names, read.count * SLOT_BYTES);
        hold_write_message(&numbers, &names, room_for(message.length));
    }
    read_one_more();
}
