#include "book.h"

#include <string.h>

#include "numbers.h"

/* "offsets in two's complement" */
static int32_t signed_number(uint32_t bits)
{
    return bits <= INT32_MAX ? (int32_t)bits : (int32_t)((int64_t)bits - ((int64_t)1 << 32));
}

static bool all_zero(const uint8_t *bytes, size_t count)
{
    for (size_t i = 0; i < count; i++)
        if (bytes[i] != 0)
            return false;
    return true;
}

/* "Tuples compare by position, node, sequence, offset, in that order, offset signed." */
int compare_tuples(Tuple a, Tuple b)
{
    if (a.position != b.position)
        return compare_numbers(a.position, b.position);
    if (a.node != b.node)
        return compare_numbers(a.node, b.node);
    if (a.sequence != b.sequence)
        return compare_numbers(a.sequence, b.sequence);
    return compare_numbers(a.offset, b.offset);
}

/* "Names compare at the first tuple that differs; a proper prefix is smaller" */
int compare_names(const Name *a, const Name *b)
{
    for (size_t i = 0; i < a->depth && i < b->depth; i++) {
        int order = compare_tuples(a->tuples[i], b->tuples[i]);
        if (order != 0)
            return order;
    }
    return compare_numbers((int64_t)a->depth, (int64_t)b->depth);
}

/* "An ordinary tuple has position 1..65534, node 1..65535, any sequence, offset -1..2147483646." */
bool is_ordinary(Tuple t)
{
    return 1 <= t.position && t.position <= 65534 && 1 <= t.node && -1 <= t.offset && t.offset <= 2147483646;
}

/* "m = (0, 0, 0, 0) and M = (65535, 65535, 4294967295, 2147483647)" */
const Tuple low_marker = {0, 0, 0, 0};
const Tuple high_marker = {65535, 65535, 4294967295, 2147483647};

bool is_marker(Tuple t)
{
    return compare_tuples(t, low_marker) == 0 || compare_tuples(t, high_marker) == 0;
}

/* "The first and last tuples are ordinary, the last has offset at least 0, and markers may stand only between." */
bool is_name(const Name *name)
{
    if (name->depth < 1 || name->depth > DEPTH_LIMIT)
        return false;
    size_t last = name->depth - 1;
    for (size_t i = 0; i <= last; i++) {
        bool between = 0 < i && i < last;
        if (!is_ordinary(name->tuples[i]) && !(between && is_marker(name->tuples[i])))
            return false;
    }
    return name->tuples[last].offset >= 0;
}

Name row_of(Tuple t)
{
    Name row = {1, {t}};
    return row;
}

Name joined(const Name *a, const Name *b)
{
    Name row = *a;
    for (size_t i = 0; i < b->depth; i++)
        row.tuples[row.depth++] = b->tuples[i];
    return row;
}

bool begins_with(const Name *name, const Name *start)
{
    if (name->depth < start->depth)
        return false;
    for (size_t i = 0; i < start->depth; i++)
        if (compare_tuples(name->tuples[i], start->tuples[i]) != 0)
            return false;
    return true;
}

Name tuples_after(const Name *name, const Name *start)
{
    Name row = {0, {{0, 0, 0, 0}}};
    for (size_t i = start->depth; i < name->depth; i++)
        row.tuples[row.depth++] = name->tuples[i];
    return row;
}

Tuple read_tuple(const uint8_t *bytes)
{
    Tuple t;
    t.position = (uint16_t)from_bytes(bytes, 2);
    t.node = (uint16_t)from_bytes(bytes + 2, 2);
    t.sequence = from_bytes(bytes + 4, 4);
    t.offset = signed_number(from_bytes(bytes + 8, 4));
    return t;
}

void write_tuple(uint8_t *bytes, Tuple t)
{
    to_bytes(bytes, 2, t.position);
    to_bytes(bytes + 2, 2, t.node);
    to_bytes(bytes + 4, 4, t.sequence);
    to_bytes(bytes + 8, 4, (uint32_t)t.offset);
}

/* "depth 1..8, three zero bytes, line number (u32, any value, repeats allowed), then eight tuples of 12 bytes, the first
 * depth of them a name, the rest all zero" */
bool read_slot_of(size_t limit, const uint8_t *bytes, Slot *slot)
{
    size_t depth = bytes[0];
    if (depth < 1 || depth > limit || !all_zero(bytes + 1, 3))
        return false;
    slot->line = from_bytes(bytes + 4, 4);
    slot->name.depth = depth;
    for (size_t i = 0; i < depth; i++)
        slot->name.tuples[i] = read_tuple(bytes + HEAD_BYTES + i * TUPLE_BYTES);
    return is_name(&slot->name) && all_zero(bytes + SLOT_BYTES_OF(depth), (limit - depth) * TUPLE_BYTES);
}

bool read_slot(const uint8_t *bytes, Slot *slot)
{
    return read_slot_of(DEPTH_LIMIT, bytes, slot);
}

void write_slot_of(size_t limit, uint8_t *bytes, const Slot *slot)
{
    memset(bytes, 0, SLOT_BYTES_OF(limit));
    bytes[0] = (uint8_t)slot->name.depth;
    to_bytes(bytes + 4, 4, slot->line);
    for (size_t i = 0; i < slot->name.depth; i++)
        write_tuple(bytes + HEAD_BYTES + i * TUPLE_BYTES, slot->name.tuples[i]);
}

void write_slot(uint8_t *bytes, const Slot *slot)
{
    write_slot_of(DEPTH_LIMIT, bytes, slot);
}

/* "A length that is no whole number of slots or entries breaks the layout." */
static bool keeps_layout(size_t limit, const uint8_t *bytes, size_t length)
{
    if (length % SLOT_BYTES_OF(limit) != 0 || length > PAGE_BYTES_OF(limit))
        return false;
    for (size_t at = 0; at < length; at += SLOT_BYTES_OF(limit)) {
        Slot slot;
        if (!read_slot_of(limit, bytes + at, &slot))
            return false;
    }
    return true;
}

bool names_rise(const Page *page)
{
    for (size_t i = 1; i < page->count; i++)
        if (compare_names(&page->slots[i - 1].name, &page->slots[i].name) >= 0)
            return false;
    return true;
}

bool names_fit(const Page *page, size_t limit)
{
    for (size_t i = 0; i < page->count; i++)
        if (page->slots[i].name.depth > limit)
            return false;
    return true;
}

/* "a page (its order apart) or given slot breaks its layout": a given slot is one slot long. */
int check_slot(const uint8_t *bytes, size_t length)
{
    Slot slot;
    return length == SLOT_BYTES && read_slot(bytes, &slot) ? ACCEPTED : PAGE_LAYOUT;
}

int check_page_of(size_t limit, const uint8_t *bytes, size_t length)
{
    if (!keeps_layout(limit, bytes, length))
        return PAGE_LAYOUT;
    Page page;
    read_page_of(limit, bytes, length, &page);
    return names_rise(&page) ? ACCEPTED : PAGE_NOT_RISING;
}

int check_page(const uint8_t *bytes, size_t length)
{
    return check_page_of(DEPTH_LIMIT, bytes, length);
}

/* "A log is a page of 1..256 slots whose line numbers are 0." */
int check_log(const uint8_t *bytes, size_t length)
{
    if (length == 0 || check_page(bytes, length) != ACCEPTED)
        return LOG_BROKEN;
    for (size_t at = 0; at < length; at += SLOT_BYTES) {
        Slot slot;
        read_slot(bytes + at, &slot);
        if (slot.line != 0)
            return LOG_BROKEN;
    }
    return ACCEPTED;
}

void read_page_of(size_t limit, const uint8_t *bytes, size_t length, Page *page)
{
    page->count = length / SLOT_BYTES_OF(limit);
    for (size_t i = 0; i < page->count; i++)
        read_slot_of(limit, bytes + i * SLOT_BYTES_OF(limit), &page->slots[i]);
}

void read_page(const uint8_t *bytes, size_t length, Page *page)
{
    read_page_of(DEPTH_LIMIT, bytes, length, page);
}

Outcome refused(int answer)
{
    Outcome outcome = {answer, 0};
    return outcome;
}

Outcome write_page_of(size_t limit, const Page *page, uint8_t *out, size_t room)
{
    if (room < page->count * SLOT_BYTES_OF(limit))
        return refused(OUTPUT_SHORT);
    for (size_t i = 0; i < page->count; i++)
        write_slot_of(limit, out + i * SLOT_BYTES_OF(limit), &page->slots[i]);
    Outcome outcome = {ACCEPTED, page->count};
    return outcome;
}

Outcome write_page(const Page *page, uint8_t *out, size_t room)
{
    return write_page_of(DEPTH_LIMIT, page, out, room);
}
