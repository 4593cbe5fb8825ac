#include "edits.h"

/* The first refusals of insert and remove: "1 (page), 1 (slot), 2"; where there is none, page and slot are read. */
static int read_edit(const uint8_t *page, size_t page_length, const uint8_t *slot, size_t slot_length, Page *old,
                     Slot *given)
{
    int answer = check_page(page, page_length);
    if (answer == PAGE_LAYOUT || check_slot(slot, slot_length) == PAGE_LAYOUT)
        return PAGE_LAYOUT;
    if (answer != ACCEPTED)
        return answer;
    read_page(page, page_length, old);
    read_slot(slot, given);
    return ACCEPTED;
}

static bool has_name(const Page *page, const Name *name)
{
    for (size_t i = 0; i < page->count; i++)
        if (compare_names(&page->slots[i].name, name) == 0)
            return true;
    return false;
}

/* "Insert writes the page with the given slot at its rising place"; "insert 1 (page), 1 (slot), 2, 9, 11, 8" */
Outcome insert_slot(const uint8_t *page, size_t page_length, const uint8_t *slot, size_t slot_length, uint8_t *out,
                    size_t room)
{
    Page old;
    Slot given;
    int answer = read_edit(page, page_length, slot, slot_length, &old, &given);
    if (answer != ACCEPTED)
        return refused(answer);
    if (has_name(&old, &given.name))
        return refused(NAME_PRESENT);
    if (old.count == SLOT_LIMIT)
        return refused(PAGE_FULL);
    Page result;
    result.count = 0;
    size_t i = 0;
    while (i < old.count && compare_names(&old.slots[i].name, &given.name) < 0)
        result.slots[result.count++] = old.slots[i++];
    result.slots[result.count++] = given;
    while (i < old.count)
        result.slots[result.count++] = old.slots[i++];
    return write_page(&result, out, room);
}

/* "remove writes it without the slot of that name"; "remove 1, 1, 2, 10, 8 (the given line number is ignored)" */
Outcome remove_slot(const uint8_t *page, size_t page_length, const uint8_t *slot, size_t slot_length, uint8_t *out,
                    size_t room)
{
    Page old;
    Slot given;
    int answer = read_edit(page, page_length, slot, slot_length, &old, &given);
    if (answer != ACCEPTED)
        return refused(answer);
    if (!has_name(&old, &given.name))
        return refused(NAME_ABSENT);
    Page result;
    result.count = 0;
    for (size_t i = 0; i < old.count; i++)
        if (compare_names(&old.slots[i].name, &given.name) != 0)
            result.slots[result.count++] = old.slots[i];
    return write_page(&result, out, room);
}

/* The three rules of "New names", between a and b, either NULL where it is missing: ACCEPTED or NO_NEW_NAME. The row
 * that is made may be too deep. */
static int name_between(const Name *a, const Name *b, uint16_t node, uint32_t sequence, Name *made)
{
    const Name nothing = {0, {{0, 0, 0, 0}}};
    const Name *before = a != NULL ? a : &nothing;

    /* "First positions count 0 for a missing a and 65535 for a missing b." */
    int first_of_a = a != NULL ? a->tuples[0].position : 0;
    int first_of_b = b != NULL ? b->tuples[0].position : 65535;

    /* "1. If they differ by 2 or more: one tuple, position half their sum rounded down, author's node and sequence,
     * offset 0." */
    if (first_of_b - first_of_a >= 2) {
        Tuple t = {(uint16_t)((first_of_a + first_of_b) / 2), node, sequence, 0};
        *made = row_of(t);
        return ACCEPTED;
    }

    /* "2. Else if a is missing or a proper prefix of b, let y be b's first tuple after a." A missing b is at least 2
     * from a missing a, and has no prefix. */
    if (b != NULL && begins_with(b, before)) {
        Tuple y = b->tuples[before->depth];
        /* "If y's position is 2 or more: a·(half that position rounded down, node, sequence, 0)." */
        if (y.position >= 2) {
            Tuple t = {y.position / 2, node, sequence, 0};
            Name tail = row_of(t);
            *made = joined(before, &tail);
            return ACCEPTED;
        }
        /* "If it is 1 and y's offset is at least 0: a·(y one offset lower)·(32768, node, sequence, 0)." */
        if (y.position == 1 && y.offset >= 0) {
            Tuple lower = y, t = {32768, node, sequence, 0};
            lower.offset--;
            Name middle = row_of(lower), tail = row_of(t);
            *made = joined(before, &middle);
            *made = joined(made, &tail);
            return ACCEPTED;
        }
        /* "Otherwise answer 12." */
        return NO_NEW_NAME;
    }

    /* "3. Else a·(32768, node, sequence, 0)." */
    Tuple t = {32768, node, sequence, 0};
    Name tail = row_of(t);
    *made = joined(before, &tail);
    return ACCEPTED;
}

/* "new name 1, 2, 4, 16, 12, 6" */
int new_name(const uint8_t *page, size_t page_length, size_t gap, uint16_t node, uint32_t sequence, Name *made)
{
    int answer = check_page(page, page_length);
    if (answer != ACCEPTED)
        return answer;
    if (node == 0)
        return NO_AUTHOR;
    Page old;
    read_page(page, page_length, &old);
    /* "Asked for gap g (before slot g, or after the last)" */
    if (gap > old.count)
        return GAP_BEYOND;
    const Name *a = gap > 0 ? &old.slots[gap - 1].name : NULL;
    const Name *b = gap < old.count ? &old.slots[gap].name : NULL;
    answer = name_between(a, b, node, sequence, made);
    if (answer != ACCEPTED)
        return answer;
    return made->depth > DEPTH_LIMIT ? TOO_DEEP : ACCEPTED;
}
