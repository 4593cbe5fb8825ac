#include "bytes.h"

#include <string.h>

#include "book_parts.h"

uint32_t random_line(void)
{
    static const uint32_t lines[] = {0, 1, 255, 256, 65536, 2147483648, 4294967295};
    return once_in(2) ? lines[random_below(LENGTH(lines))] : (uint32_t)random_word();
}

void add_slot(Bytes *bytes, uint32_t line, const Name *name)
{
    Slot slot = {line, *name};
    write_slot(bytes->bytes + bytes->length, &slot);
    bytes->length += SLOT_BYTES;
}

size_t slots_of(const Bytes *bytes)
{
    return bytes->length / SLOT_BYTES;
}

void copy_bytes(const Bytes *from, Bytes *to)
{
    to->length = from->length;
    memcpy(to->bytes, from->bytes, from->length);
}

void add_group(Bytes *form, const Name *first, size_t length, size_t lines)
{
    Written written = {form->length, form->bytes};
    put_name(&written, FIRST_NAME_TAG, first);
    put_head(&written, LENGTH_TAG, LENGTH_BYTES);
    put_number(&written, LENGTH_BYTES, (uint32_t)length);
    put_head(&written, LINES_TAG, lines * LINE_BYTES);
    form->length = written.length;
}

void add_group_line(Bytes *form, uint32_t line)
{
    Written written = {form->length, form->bytes};
    put_number(&written, LINE_BYTES, line);
    form->length = written.length;
}

void copy_slot(const Bytes *page, size_t at, Bytes *slot)
{
    slot->length = SLOT_BYTES;
    memcpy(slot->bytes, page->bytes + at * SLOT_BYTES, SLOT_BYTES);
}

void make_page(Bytes *page, const Names *names)
{
    page->length = 0;
    for (size_t i = 0; i < names->count; i++)
        add_slot(page, random_line(), &names->names[i]);
}

void make_log(Bytes *log, const Names *names)
{
    log->length = 0;
    for (size_t i = 0; i < names->count; i++)
        add_slot(log, 0, &names->names[i]);
}

void fill_slots(Bytes *bytes, size_t slots, Name name)
{
    bytes->length = 0;
    for (size_t i = 0; i < slots; i++) {
        name.tuples[0].sequence = (uint32_t)i;
        add_slot(bytes, 0, &name);
    }
}

void make_long_page(Bytes *bytes, size_t slots, size_t limit, bool log)
{
    size_t deeper = once_in(4) ? 1 : 8;
    bytes->length = 0;
    for (size_t i = 0; i < slots; i++) {
        Name name = long_logged_name(i);
        if (once_in(deeper))
            name = deepened(name, limit);
        add_slot(bytes, log ? 0 : random_line(), &name);
    }
}

size_t long_count(void)
{
    if (once_in(2))
        return SLOT_LIMIT;
    return once_in(2) ? SLOT_LIMIT - 1 + random_below(3) : random_below(SLOT_LIMIT);
}

void make_old_page(Bytes *old, const Bytes *page)
{
    old->length = 0;
    for (size_t at = 0; at + SLOT_BYTES <= page->length; at += SLOT_BYTES) {
        memcpy(old->bytes + old->length, page->bytes + at, OLD_SLOT_BYTES);
        old->length += OLD_SLOT_BYTES;
    }
}

void log_of(const Bytes *page, Bytes *log)
{
    copy_bytes(page, log);
    for (size_t at = 0; at < log->length; at += SLOT_BYTES)
        memset(log->bytes + at + 4, 0, 4);
}

void cut_bytes(Bytes *bytes, size_t count)
{
    bytes->length -= count < bytes->length ? count : bytes->length;
}

static uint8_t random_byte(void)
{
    static const uint8_t values[] = {0, 1, 2, OLD_DEPTH_LIMIT, OLD_DEPTH_LIMIT + 1, DEPTH_LIMIT, DEPTH_LIMIT + 1,
                                     127, 128, 255};
    return values[random_below(LENGTH(values))];
}

void spoil_slot(Bytes *slots)
{
    if (slots_of(slots) == 0)
        return;
    size_t slot = random_below(slots_of(slots)) * SLOT_BYTES;
    slots->bytes[slot + random_below(once_in(3) ? SLOT_BYTES : HEAD_BYTES)] = random_byte();
}

static void change_byte(Bytes *bytes)
{
    size_t at = random_below(bytes->length);
    if (once_in(2))
        bytes->bytes[at] = random_byte();
    else
        bytes->bytes[at] ^= (uint8_t)(1 << random_below(8));
}

static void swap_pieces(Bytes *bytes, size_t piece)
{
    size_t pieces = bytes->length / piece;
    if (pieces == 0)
        return;
    uint8_t held[SLOT_BYTES];
    uint8_t *a = bytes->bytes + random_below(pieces) * piece, *b = bytes->bytes + random_below(pieces) * piece;
    memcpy(held, a, piece);
    memmove(a, b, piece);
    if (once_in(2))
        memcpy(b, held, piece);
}

static void add_bytes(Bytes *bytes, size_t count)
{
    for (size_t i = 0; i < count && bytes->length < MOST_BYTES; i++)
        bytes->bytes[bytes->length++] = (uint8_t)(once_in(2) ? 0 : random_word());
}

void damage_bytes(Bytes *bytes, size_t piece)
{
    size_t several = once_in(2) ? 1 : random_below(2 * piece);
    switch (random_below(5)) {
    case 0: cut_bytes(bytes, several); break;
    case 1: add_bytes(bytes, several); break;
    case 2: swap_pieces(bytes, piece); break;
    default:
        if (bytes->length > 0)
            change_byte(bytes);
        break;
    }
}

void maybe_damage_bytes(size_t times, Bytes *bytes, size_t piece)
{
    if (once_in(times))
        damage_bytes(bytes, piece);
}

size_t room_for(size_t bytes)
{
    size_t room = bytes;
    switch (random_below(8)) {
    case 0: room = bytes > 0 ? bytes - 1 : 0; break;
    case 1: room = random_below(bytes + 1); break;
    case 2: room = bytes + 1; break;
    case 3: room = PAGE_BYTES; break;
    case 4: room = MOST_ROOM; break;
    default: break;
    }
    return room <= MOST_ROOM ? room : MOST_ROOM;
}

uint16_t maybe_no_node(uint16_t node)
{
    return once_in(25) ? 0 : node;
}
