#include "group_parts.h"

#include <stdlib.h>
#include <string.h>

#include "../reference/numbers.h"
#include "bytes.h"

/* ---- pages with runs */

enum { MOST_NAMES = 2 * SLOT_LIMIT };

/* The names of a page that is being made. */
static Name names[MOST_NAMES];
static size_t count;

static size_t run_length(bool many)
{
    static const size_t lengths[] = {1, 2, 127, 128, 254, 255, 256, 257};
    if (!many)
        return 1 + random_below(4);
    return once_in(2) ? lengths[random_below(LENGTH(lengths))] : 1 + random_below(SLOT_LIMIT);
}

/* A name with its last offset so much higher or lower; it may be no name. */
static Name moved(const Name *name, int steps)
{
    Name row = *name;
    int64_t offset = (int64_t)row.tuples[row.depth - 1].offset + steps;
    if (INT32_MIN <= offset && offset <= INT32_MAX)
        row.tuples[row.depth - 1].offset = (int32_t)offset;
    return row;
}

/* A name with one tuple more or two; it may be no name, or too deep. */
static Name extended(const Name *name)
{
    Name tail = row_of(random_ordinary());
    if (tail.tuples[0].offset < 0)
        tail.tuples[0].offset = 0;
    if (once_in(4)) {
        Name middle = row_of(once_in(2) ? random_marker() : random_ordinary());
        tail = followed(&middle, &tail);
    }
    return followed(name, &tail);
}

/* Where a run begins: any name, or next to a name that has come, or below it. */
static Name run_start(void)
{
    Name start;
    do {
        const Name *other = count > 0 ? &names[random_below(count)] : NULL;
        if (other == NULL || once_in(4))
            start = random_name();
        else if (once_in(3))
            start = moved(&names[count - 1], 2 + (int)random_below(2));
        else if (once_in(2))
            start = extended(other);
        else
            start = moved(other, once_in(2) ? 2 : -2);
    } while (!is_name(&start));
    return start;
}

static void add_run(size_t length)
{
    Name name = run_start();
    if (once_in(8))
        name = deepened(name, DEPTH_LIMIT);
    for (size_t i = 0; i < length && count < MOST_NAMES && is_name(&name); i++) {
        names[count++] = name;
        name = moved(&name, 1);
    }
}

static int by_name(const void *a, const void *b)
{
    return compare_names(a, b);
}

/* So many of the names in rising order, each once. */
static void make_rising_page(Bytes *page, size_t most)
{
    qsort(names, count, sizeof *names, by_name);
    page->length = 0;
    for (size_t i = 0; i < count && slots_of(page) < most; i++)
        if (i == 0 || compare_names(&names[i - 1], &names[i]) != 0)
            add_slot(page, random_line(), &names[i]);
}

void make_run_page(Bytes *page, bool many)
{
    size_t most = many ? long_count() : 2 * NAMES;
    count = 0;
    for (size_t i = random_below(6); i > 0; i--)
        add_run(run_length(many));
    if (many)
        add_run(SLOT_LIMIT + 1);
    make_rising_page(page, most);
}

void swap_slots(Bytes *page)
{
    if (slots_of(page) == 0)
        return;
    uint8_t held[SLOT_BYTES], *a = page->bytes + random_below(slots_of(page)) * SLOT_BYTES,
                              *b = page->bytes + random_below(slots_of(page)) * SLOT_BYTES;
    memcpy(held, a, SLOT_BYTES);
    memmove(a, b, SLOT_BYTES);
    if (once_in(2))
        memcpy(b, held, SLOT_BYTES);
}

/* ---- forms */

static Slot slot_at(const Bytes *page, size_t at)
{
    Slot slot;
    read_slot(page->bytes + at * SLOT_BYTES, &slot);
    return slot;
}

/* Whether the slot at a place is in the group of the one before it. */
static bool goes_on(const Bytes *page, size_t at, size_t cut)
{
    if (at == slots_of(page) || (cut != 0 && once_in(cut)))
        return false;
    Slot before = slot_at(page, at - 1), slot = slot_at(page, at);
    return is_next(&before.name, &slot.name);
}

void make_form(Bytes *form, const Bytes *page, size_t cut)
{
    size_t end;
    form->length = 0;
    for (size_t start = 0; start < slots_of(page); start = end) {
        Slot first = slot_at(page, start);
        for (end = start + 1; goes_on(page, end, cut); end++)
            ;
        add_group(form, &first.name, end - start, end - start);
        for (size_t i = start; i < end; i++)
            add_group_line(form, slot_at(page, i).line);
    }
}

/* A length at an edge, or a small one. */
static size_t any_length(void)
{
    static const size_t lengths[] = {0, 1, 2, 255, 256, 257, MOST_LINES - 1, MOST_LINES, MOST_LINES + 1, 32768, 65535};
    return once_in(2) ? lengths[random_below(LENGTH(lengths))] : 1 + random_below(4);
}

/* As many line numbers as the length says, also where no field has room for them, or as its field says in sixteen bits, or one
 * more or less. */
static size_t any_lines(size_t length)
{
    size_t lines = length % (MOST_LINES + 1);
    if (once_in(4))
        return length;
    if (once_in(6))
        lines += once_in(2) ? 1 : MOST_LINES;
    return lines % (MOST_LINES + 1);
}

void add_any_group(Bytes *form)
{
    size_t length = any_length(), lines = any_lines(length);
    Name first = maybe_broken_name();
    if (form->length + LONGEST_NAME_FIELD + LENGTH_FIELD + FIELD_HEAD_BYTES + lines * LINE_BYTES > MOST_BYTES)
        return;
    add_group(form, &first, length, lines);
    if (once_in(2)) /* what the field's length has more than sixteen bits goes to its tag */
        form->bytes[form->length - FIELD_HEAD_BYTES] += (uint8_t)(lines / (MOST_LINES + 1));
    for (size_t i = 0; i < lines; i++)
        add_group_line(form, (uint32_t)i);
}

void add_high_group(Bytes *form)
{
    Tuple high = {65534, 65535, 4294967295, 1000};
    Name first = row_of(high);
    size_t length = SLOT_LIMIT - 2 + random_below(5);
    add_group(form, &first, length, length);
    for (size_t i = 0; i < length; i++)
        add_group_line(form, (uint32_t)i);
}

/* ---- what is wrong with a form */

enum { MOST_FIELDS = 3 * MOST_NAMES };

/* Where the fields of a form begin, and where the last ends. */
static size_t starts[MOST_FIELDS + 1], fields;

static void find_fields(const Bytes *form)
{
    fields = 0;
    starts[0] = 0;
    while (fields < MOST_FIELDS && starts[fields] + FIELD_HEAD_BYTES <= form->length) {
        size_t end = starts[fields] + FIELD_HEAD_BYTES + from_bytes(form->bytes + starts[fields] + 1, 2);
        if (end > form->length)
            return;
        starts[++fields] = end;
    }
}

/* The bytes from a place on are moved to another, and the form ends so much later or earlier. */
static void move_rest(Bytes *form, size_t from, size_t to)
{
    if (form->length - from + to > MOST_BYTES)
        return;
    memmove(form->bytes + to, form->bytes + from, form->length - from);
    form->length = form->length - from + to;
}

static void swap_fields(Bytes *form, size_t a, size_t b)
{
    static Bytes held;
    copy_bytes(form, &held);
    form->length = 0;
    for (size_t i = 0; i < fields; i++) {
        size_t taken = i == a ? b : i == b ? a : i, length = starts[taken + 1] - starts[taken];
        memcpy(form->bytes + form->length, held.bytes + starts[taken], length);
        form->length += length;
    }
}

/* Adds to a number in the bytes, which comes round. */
static void add_to(uint8_t *bytes, size_t length, const int *steps, size_t choices)
{
    to_bytes(bytes, length, from_bytes(bytes, length) + (uint32_t)steps[random_below(choices)]);
}

static void change_head(uint8_t *field)
{
    static const int steps[] = {1, -1, LINE_BYTES, -LINE_BYTES, TUPLE_BYTES, -TUPLE_BYTES, 256, -256};
    if (once_in(3))
        field[0] = (uint8_t)random_below(LINES_TAG + 2);
    else
        add_to(field + 1, 2, steps, LENGTH(steps));
}

/* The last offset of a name, which may bring the run of that length to the last of all offsets, or past it. */
static void change_offset(uint8_t *offset, uint32_t length)
{
    static const uint32_t offsets[] = {0, LAST_OFFSET - 1, LAST_OFFSET, LAST_OFFSET + 1u, UINT32_MAX};
    uint32_t last = LAST_OFFSET + 1u - length;
    to_bytes(offset, 4, once_in(2) ? offsets[random_below(LENGTH(offsets))] : last + (uint32_t)random_below(2));
}

/* The last offset of a name, or a length. */
static void change_content(Bytes *form, size_t at)
{
    static const int steps[] = {1, -1, 256, 16384, 32768};
    uint8_t *field = form->bytes + starts[at], *next = form->bytes + starts[at + 1];
    if (field[0] == LENGTH_TAG)
        add_to(field + FIELD_HEAD_BYTES, LENGTH_BYTES, steps, LENGTH(steps));
    else if (field[0] == FIRST_NAME_TAG && next - field >= FIELD_HEAD_BYTES + TUPLE_BYTES && at + 1 < fields)
        change_offset(next - 4, from_bytes(next + FIELD_HEAD_BYTES, LENGTH_BYTES));
}

/* What a field's content is made of: tuples, single bytes of a length, line numbers. */
static size_t piece_of(uint8_t tag)
{
    return tag == FIRST_NAME_TAG ? TUPLE_BYTES : tag == LENGTH_TAG ? 1 : LINE_BYTES;
}

/* A field with its first piece once more at its end, with a piece less, or with none; its head tells so. */
static void stretch_field(Bytes *form, size_t at)
{
    uint8_t *field = form->bytes + starts[at];
    size_t length = starts[at + 1] - starts[at] - FIELD_HEAD_BYTES, piece = piece_of(field[0]);
    if (length < piece || form->length + piece > MOST_BYTES)
        return;
    size_t stretched = once_in(2) ? length + piece : once_in(2) ? length - piece : 0;
    move_rest(form, starts[at + 1], starts[at] + FIELD_HEAD_BYTES + stretched);
    if (stretched > length)
        memcpy(field + FIELD_HEAD_BYTES + length, field + FIELD_HEAD_BYTES, piece);
    to_bytes(field + 1, 2, (uint32_t)stretched);
}

/* "has a length of 0" */
static void empty_group(Bytes *form, size_t at)
{
    uint8_t *length = form->bytes + starts[at];
    if (length[0] != LENGTH_TAG || at + 1 == fields || starts[at + 1] - starts[at] != LENGTH_FIELD)
        return;
    to_bytes(length + FIELD_HEAD_BYTES, LENGTH_BYTES, 0);
    to_bytes(form->bytes + starts[at + 1] + 1, 2, 0);
    move_rest(form, starts[at + 2], starts[at + 1] + FIELD_HEAD_BYTES);
}

void damage_form(Bytes *form)
{
    find_fields(form);
    if (fields == 0) {
        damage_bytes(form, TUPLE_BYTES);
        return;
    }
    size_t at = random_below(fields), length = starts[at + 1] - starts[at];
    switch (random_below(10)) {
    case 0: move_rest(form, starts[at + 1], starts[at]); break;
    case 1: move_rest(form, starts[at], starts[at] + length); break;
    case 2: swap_fields(form, at, random_below(fields)); break;
    case 3:
    case 4: change_head(form->bytes + starts[at]); break;
    case 5:
    case 6: change_content(form, at); break;
    case 7: stretch_field(form, at); break;
    case 8: empty_group(form, at); break;
    default: damage_bytes(form, FIELD_HEAD_BYTES + TUPLE_BYTES); break;
    }
}

/* ---- names near those of a page */

/* A slot of which the one so many slots later has the name that is so many steps after; or any slot, where there is none such. */
static size_t slot_before(const Bytes *page, size_t later, int steps)
{
    size_t slots = slots_of(page), at = random_below(slots);
    for (size_t i = 0; i < slots; i++, at = (at + 1) % slots) {
        if (at + later >= slots)
            continue;
        Slot before = slot_at(page, at), after = slot_at(page, at + later);
        Name name = moved(&before.name, steps);
        if (compare_names(&name, &after.name) == 0)
            return at;
    }
    return at;
}

static Name any_of(const Bytes *page)
{
    return slot_at(page, random_below(slots_of(page))).name;
}

Name name_to_insert(const Bytes *page)
{
    if (slots_of(page) == 0 || once_in(8))
        return random_name();
    Name name = any_of(page), before = slot_at(page, slot_before(page, 1, 2)).name;
    switch (random_below(6)) {
    case 0: return moved(&name, 1);
    case 1: return moved(&name, -1);
    case 2: return moved(&name, once_in(2) ? 2 : -2);
    case 3:
    case 4: return extended(&name);
    default: return moved(&before, 1);
    }
}

Name name_to_remove(const Bytes *page)
{
    if (slots_of(page) == 0 || once_in(8))
        return name_to_insert(page);
    size_t before = slot_before(page, 2, once_in(2) ? 1 : 2);
    return once_in(2) ? any_of(page) : slot_at(page, (before + 1) % slots_of(page)).name;
}
