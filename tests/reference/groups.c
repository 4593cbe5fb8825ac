#include "groups.h"

#include "edits.h"
#include "numbers.h"

/* ---- runs */

Name name_after(const Name *name, size_t steps)
{
    Name after = *name;
    after.tuples[after.depth - 1].offset += (int32_t)steps;
    return after;
}

/* "names differ only in the last offset, each one more than the one before" */
bool is_next(const Name *a, const Name *b)
{
    if (a->tuples[a->depth - 1].offset >= LAST_OFFSET)
        return false;
    Name next = name_after(a, 1);
    return compare_names(&next, b) == 0;
}

/* ---- reading a form */

static const char *take_first_name(Span *rest, Name *name)
{
    Span content;
    const char *wrong = take_field(rest, FIRST_NAME_TAG, &content);
    return wrong != NULL ? wrong : read_content(content, name);
}

/* "a length of two bytes" */
static const char *take_length(Span *rest, size_t *length)
{
    const uint8_t *content;
    const char *wrong = take_bytes(rest, LENGTH_TAG, LENGTH_BYTES, &content);
    if (wrong == NULL)
        *length = from_bytes(content, LENGTH_BYTES);
    return wrong;
}

/* "the line numbers, four bytes each": as many as the group has slots. */
static const char *take_lines(Span *rest, size_t length, const uint8_t **lines)
{
    Span content;
    const char *wrong = take_field(rest, LINES_TAG, &content);
    if (wrong != NULL)
        return wrong;
    *lines = content.bytes;
    return content.length == LINE_BYTES * length ? NULL : "line numbers for another length";
}

/* A run has no name with an offset that a name cannot have. */
static bool has_names(const Group *group)
{
    int64_t last = (int64_t)group->first.tuples[group->first.depth - 1].offset + (int64_t)group->length - 1;
    return last <= LAST_OFFSET;
}

const char *take_group(Span *rest, Group *group)
{
    const char *wrong = take_first_name(rest, &group->first);
    if (wrong == NULL)
        wrong = take_length(rest, &group->length);
    if (wrong == NULL)
        wrong = take_lines(rest, group->length, &group->lines);
    if (wrong == NULL && group->length == 0)
        wrong = "a length of 0";
    if (wrong == NULL && !has_names(group))
        wrong = "a run past the last offset";
    return wrong;
}

static Name last_name(const Group *group)
{
    return name_after(&group->first, group->length - 1);
}

/* "15 for a form that is malformed, has a length of 0 or isn't longest". A group isn't longest where the next one begins with
 * the name right after its last. */
const char *wrong_with_form(const uint8_t *form, size_t length)
{
    Span rest = {form, length};
    Name before = {0, {{0, 0, 0, 0}}};
    while (rest.length > 0) {
        Group group;
        const char *wrong = take_group(&rest, &group);
        if (wrong != NULL)
            return wrong;
        if (before.depth > 0 && is_next(&before, &group.first))
            return "not longest";
        before = last_name(&group);
    }
    return NULL;
}

/* "then 2", of a form that is not malformed. The names of a group rise. */
static bool groups_rise(const uint8_t *form, size_t length)
{
    Span rest = {form, length};
    Name before = {0, {{0, 0, 0, 0}}};
    while (rest.length > 0) {
        Group group;
        take_group(&rest, &group);
        if (before.depth > 0 && compare_names(&before, &group.first) >= 0)
            return false;
        before = last_name(&group);
    }
    return true;
}

static size_t slots_of_form(const uint8_t *form, size_t length)
{
    Span rest = {form, length};
    size_t slots = 0;
    while (rest.length > 0) {
        Group group;
        take_group(&rest, &group);
        slots += group.length;
    }
    return slots;
}

/* "15 for a form that is malformed, has a length of 0 or isn't longest, then 2, then 11 for more than 256 slots" */
int check_form(const uint8_t *form, size_t length)
{
    if (wrong_with_form(form, length) != NULL)
        return MALFORMED;
    if (!groups_rise(form, length))
        return PAGE_NOT_RISING;
    return slots_of_form(form, length) <= SLOT_LIMIT ? ACCEPTED : PAGE_FULL;
}

/* Of a form that is accepted. */
static void read_form(const uint8_t *form, size_t length, Page *page)
{
    Span rest = {form, length};
    page->count = 0;
    while (rest.length > 0) {
        Group group;
        take_group(&rest, &group);
        for (size_t i = 0; i < group.length; i++) {
            Slot *slot = &page->slots[page->count++];
            slot->line = from_bytes(group.lines + i * LINE_BYTES, LINE_BYTES);
            slot->name = name_after(&group.first, i);
        }
    }
}

/* ---- writing a form */

/* "Groups are as long as possible": how many slots the run has that begins here. */
static size_t run_length(const Page *page, size_t start)
{
    size_t end = start + 1;
    while (end < page->count && is_next(&page->slots[end - 1].name, &page->slots[end].name))
        end++;
    return end - start;
}

/* "stored as the first name, a length and the line numbers in order" */
static void put_group(Written *written, const Slot *slots, size_t length)
{
    put_name(written, FIRST_NAME_TAG, &slots[0].name);
    put_head(written, LENGTH_TAG, LENGTH_BYTES);
    put_number(written, LENGTH_BYTES, (uint32_t)length);
    put_head(written, LINES_TAG, LINE_BYTES * length);
    for (size_t i = 0; i < length; i++)
        put_number(written, LINE_BYTES, slots[i].line);
}

static Outcome write_form(const Page *page, uint8_t *out, size_t room)
{
    uint8_t bytes[LONGEST_FORM];
    Written written = {0, bytes};
    for (size_t start = 0; start < page->count; start += run_length(page, start))
        put_group(&written, &page->slots[start], run_length(page, start));
    return write_out(&written, out, room);
}

/* ---- the calls */

/* "A page to be grouped gives 1, 2, 8." */
Outcome group_page(const uint8_t *page, size_t length, uint8_t *out, size_t room)
{
    int answer = check_page(page, length);
    if (answer != ACCEPTED)
        return refused(answer);
    Page slots;
    read_page(page, length, &slots);
    return write_form(&slots, out, room);
}

/* "15 [..], then 2, then 11 [..]; 8 is last." */
Outcome ungroup_form(const uint8_t *form, size_t length, uint8_t *out, size_t room)
{
    int answer = check_form(form, length);
    if (answer != ACCEPTED)
        return refused(answer);
    Page page;
    read_form(form, length, &page);
    return write_page(&page, out, room);
}

typedef Outcome Edit(const uint8_t *page, size_t page_length, const uint8_t *slot, size_t slot_length, uint8_t *out,
                     size_t room);

/* "Insert and remove should also work on the grouped form [..] and agree with the page": the page that the form stands for is
 * edited, and grouped again. Of a page that is accepted the edits refuse "1 (slot), then 9 and 11, or 10"; they have all the
 * room that they need, and "8 is last". */
static Outcome edit_form(Edit *edit, const uint8_t *form, size_t length, const uint8_t *slot, size_t slot_length,
                         uint8_t *out, size_t room)
{
    uint8_t page[PAGE_BYTES], edited[PAGE_BYTES];
    Outcome outcome = ungroup_form(form, length, page, sizeof page);
    if (outcome.answer != ACCEPTED)
        return outcome;
    outcome = edit(page, outcome.count * SLOT_BYTES, slot, slot_length, edited, sizeof edited);
    if (outcome.answer != ACCEPTED)
        return outcome;
    return group_page(edited, outcome.count * SLOT_BYTES, out, room);
}

Outcome insert_grouped(const uint8_t *form, size_t length, const uint8_t *slot, size_t slot_length, uint8_t *out,
                       size_t room)
{
    return edit_form(insert_slot, form, length, slot, slot_length, out, room);
}

Outcome remove_grouped(const uint8_t *form, size_t length, const uint8_t *slot, size_t slot_length, uint8_t *out,
                       size_t room)
{
    return edit_form(remove_slot, form, length, slot, slot_length, out, room);
}

/* ---- ways */

/* Where a name stands among those of a form: whether it is the next after the one below it, whether the one above is the next
 * after it, and whether the one above is the next after the one below. */
typedef struct {
    bool ends;
    bool starts;
    bool parts;
} Place;

static Place place_of(const uint8_t *form, size_t length, const uint8_t *slot_bytes)
{
    Page page;
    Slot slot;
    read_form(form, length, &page);
    read_slot(slot_bytes, &slot);
    const Name *below = NULL, *above = NULL;
    for (size_t i = 0; i < page.count; i++) {
        int order = compare_names(&page.slots[i].name, &slot.name);
        if (order < 0)
            below = &page.slots[i].name;
        if (order > 0 && above == NULL)
            above = &page.slots[i].name;
    }
    Place place = {below != NULL && is_next(below, &slot.name), above != NULL && is_next(&slot.name, above),
                   below != NULL && above != NULL && is_next(below, above)};
    return place;
}

const char *way_of_insert(const uint8_t *form, size_t length, const uint8_t *slot)
{
    Place place = place_of(form, length, slot);
    if (place.ends && place.starts)
        return "two runs become one";
    if (place.starts)
        return "right before a run";
    if (place.ends)
        return "right after a run";
    return place.parts ? "inside a run, which becomes two" : "a group of its own";
}

const char *way_of_remove(const uint8_t *form, size_t length, const uint8_t *slot)
{
    Place place = place_of(form, length, slot);
    if (place.ends && place.starts)
        return "a middle one, and the run becomes two";
    if (place.starts)
        return "the first of a run";
    if (place.ends)
        return "the last of a run";
    return place.parts ? "the only one of a group, and three become one" : "the only one of a group";
}
