#include "messages.h"

#include <string.h>

#include "numbers.h"

/* Numbers and names, in slots with line number 0. */
typedef struct {
    Numbers numbers;
    Page names;
} Message;

/* ---- what a message may say */

/* "kind, one byte (1 insert, 2 remove, 3 rename)"; "six zeros for the first epoch; node 0 with another sequence is
 * malformed"; "author, 6 bytes, node at least 1" */
static const char *wrong_with_numbers(const Numbers *numbers)
{
    if (numbers->kind != INSERT && numbers->kind != REMOVE && numbers->kind != RENAME)
        return "a bad kind";
    if (numbers->epoch.node == 0 && numbers->epoch.sequence != 0)
        return "a bad epoch";
    if (numbers->author.node == 0)
        return "a bad author";
    if (numbers->line != 0 && numbers->kind != INSERT)
        return "a line number where the kind isn't insert";
    return NULL;
}

/* "for insert tag 4 [..] for remove one tag 4; for rename 1..256 tags 4, rising". A page has no more than 256. */
static const char *wrong_with_names(uint8_t kind, const Page *names)
{
    if (names->count == 0)
        return "no name";
    if (names->count > 1 && kind != RENAME)
        return "more names than one";
    return names_rise(names) ? NULL : "names not rising";
}

/* ---- reading */

static const char *take_kind(Span *rest, uint8_t *kind)
{
    const uint8_t *content;
    const char *wrong = take_bytes(rest, KIND_TAG, KIND_BYTES, &content);
    if (wrong == NULL)
        *kind = content[0];
    return wrong;
}

static const char *take_pair(Span *rest, uint8_t tag, Pair *pair)
{
    const uint8_t *content;
    const char *wrong = take_bytes(rest, tag, PAIR_BYTES, &content);
    if (wrong == NULL) {
        pair->node = (uint16_t)from_bytes(content, 2);
        pair->sequence = from_bytes(content + 2, 4);
    }
    return wrong;
}

static const char *take_line(Span *rest, uint32_t *line)
{
    const uint8_t *content;
    const char *wrong = take_bytes(rest, LINE_TAG, LINE_BYTES, &content);
    if (wrong == NULL)
        *line = from_bytes(content, LINE_BYTES);
    return wrong;
}

/* "tag 4 (a name's tuples, 12 bytes each)" */
static const char *take_name(Span *rest, Page *names)
{
    Span content;
    const char *wrong = take_field(rest, NAME_TAG, &content);
    if (wrong != NULL)
        return wrong;
    if (names->count == SLOT_LIMIT)
        return "more names than 256";
    Slot *slot = &names->slots[names->count++];
    slot->line = 0;
    return read_content(content, &slot->name);
}

/* "Tag 1: kind [..] Tag 2: epoch [..] Tag 3: author" */
static const char *take_numbers(Span *rest, Numbers *numbers)
{
    const char *wrong = take_kind(rest, &numbers->kind);
    if (wrong == NULL)
        wrong = take_pair(rest, EPOCH_TAG, &numbers->epoch);
    if (wrong == NULL)
        wrong = take_pair(rest, AUTHOR_TAG, &numbers->author);
    return wrong;
}

/* "Then for insert tag 4 [..] and tag 5 [..]; for remove one tag 4; for rename 1..256 tags 4" */
static const char *take_names(Span *rest, Message *message)
{
    const char *wrong = NULL;
    if (message->numbers.kind == RENAME) {
        while (wrong == NULL && rest->length > 0)
            wrong = take_name(rest, &message->names);
        return wrong;
    }
    wrong = take_name(rest, &message->names);
    if (wrong == NULL && message->numbers.kind == INSERT)
        wrong = take_line(rest, &message->numbers.line);
    return wrong;
}

/* "in this order, nothing after". The numbers are asked about before the names, since a kind tells which fields come. */
static const char *take_message(const uint8_t *bytes, size_t length, Message *message)
{
    memset(&message->numbers, 0, sizeof message->numbers);
    message->names.count = 0;
    Span rest = {bytes, length};
    const char *wrong = take_numbers(&rest, &message->numbers);
    if (wrong == NULL)
        wrong = wrong_with_numbers(&message->numbers);
    if (wrong == NULL)
        wrong = take_names(&rest, message);
    if (wrong == NULL && rest.length > 0)
        wrong = "bytes after the end";
    return wrong != NULL ? wrong : wrong_with_names(message->numbers.kind, &message->names);
}

const char *wrong_with_message(const uint8_t *bytes, size_t length)
{
    Message message;
    return take_message(bytes, length, &message);
}

/* "Reading gives kind, epoch, author, line number (0 unless insert) and the names, in slots with line number 0."; "read
 * message 15, 8"; "a refused read gives kind, epoch, author and line number as zeros" */
Outcome read_message(const uint8_t *bytes, size_t length, Numbers *numbers, uint8_t *out, size_t room)
{
    Message message;
    memset(numbers, 0, sizeof *numbers);
    if (take_message(bytes, length, &message) != NULL)
        return refused(MALFORMED);
    Outcome outcome = write_page(&message.names, out, room);
    if (outcome.answer == ACCEPTED)
        *numbers = message.numbers;
    return outcome;
}

/* ---- writing */

static const char *wrong_with_slots(const uint8_t *slots, size_t length)
{
    if (length > PAGE_BYTES)
        return "more slots than 256";
    if (check_page(slots, length) == PAGE_LAYOUT)
        return "slots that break their layout";
    for (size_t at = 0; at < length; at += SLOT_BYTES) {
        Slot slot;
        read_slot(slots + at, &slot);
        if (slot.line != 0)
            return "a slot's line number other than 0";
    }
    return NULL;
}

const char *wrong_with_parts(const Numbers *numbers, const uint8_t *slots, size_t slots_length)
{
    const char *wrong = wrong_with_slots(slots, slots_length);
    if (wrong == NULL)
        wrong = wrong_with_numbers(numbers);
    if (wrong != NULL)
        return wrong;
    Page names;
    read_page(slots, slots_length, &names);
    return wrong_with_names(numbers->kind, &names);
}

static void put_pair(Written *written, uint8_t tag, Pair pair)
{
    put_head(written, tag, PAIR_BYTES);
    put_number(written, 2, pair.node);
    put_number(written, 4, pair.sequence);
}

static void put_message(Written *written, const Numbers *numbers, const Page *names)
{
    put_head(written, KIND_TAG, KIND_BYTES);
    put_number(written, KIND_BYTES, numbers->kind);
    put_pair(written, EPOCH_TAG, numbers->epoch);
    put_pair(written, AUTHOR_TAG, numbers->author);
    for (size_t i = 0; i < names->count; i++)
        put_name(written, NAME_TAG, &names->slots[i].name);
    if (numbers->kind == INSERT) {
        put_head(written, LINE_TAG, LINE_BYTES);
        put_number(written, LINE_BYTES, numbers->line);
    }
}

/* "write message 15, 8 (15 for any parts that reading can't give [..])" */
Outcome write_message(const Numbers *numbers, const uint8_t *slots, size_t slots_length, uint8_t *out, size_t room)
{
    if (wrong_with_parts(numbers, slots, slots_length) != NULL)
        return refused(MALFORMED);
    Page names;
    read_page(slots, slots_length, &names);
    uint8_t bytes[LONGEST_MESSAGE];
    Written written = {0, bytes};
    put_message(&written, numbers, &names);
    return write_out(&written, out, room);
}
