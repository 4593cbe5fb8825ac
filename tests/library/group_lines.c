/*
 * The lines about grouped names. A GROUP is NAME, NAME+N or NAME+N:M: the first name, N for its length (1 where it is not said),
 * and M line numbers (as many as the length says, where it is not said). The line numbers of a form, or of the slots of a page,
 * are 1, 2, .., and that of a given slot is 77.
 *
 *   group ROOM NAME ..            the page of these names, grouped into ROOM bytes of output: the answer's number and its count,
 *                                 how many bytes of the output changed after those that the count says, and, where any were
 *                                 written, a line of them
 *   group_byte AT VALUE NAME ..   the same with one byte of the page changed, and room enough
 *   group_line LINE NAME ..       the same of slots that all have that line number
 *   group_cut SIZE ROOM           so many of the bytes of 257 slots, grouped; not shown
 *   single N ROOM NAME            a page of N slots, the given name with its first tuple's sequence 0, 1, .., grouped into ROOM
 *                                 bytes, and ungrouped into as many bytes as the page has: for both the answer's number, its
 *                                 count and how many bytes changed after those that the count says; and whether the page came
 *                                 back, 1 or 0
 *   run N ROOM NAME               the same of the given name and those right after it
 *   back GROUP ..                 the form of these groups, ungrouped and grouped: the answer's number and the count of the
 *                                 first, and whether the same bytes came back, 1 or 0
 *   ungroup ROOM GROUP ..         the form of these groups, ungrouped into ROOM bytes of output: the answer's number and its
 *                                 count, how many bytes changed after those that the count says, and the numbers that insert and
 *                                 remove of (1, 1, 0, 0) answer for the same form; and, where any were written, the listing of
 *                                 the page
 *   read ROOM HEX                 the same of a form of these bytes, two hex digits each
 *   byte AT VALUE GROUP ..        the same of a form with one byte changed, and room enough
 *   cuts GROUP ..                 each proper beginning of the form, ungrouped: how many were answered 15, and how many there are
 *   insert ROOM NAME GROUP ..     line 77 with that name into the form: the answer's number and its count, how many bytes changed
 *                                 after those that the count says, and each group that was written, with its line numbers
 *   insert_byte AT VALUE NAME GROUP ..      the same with one byte of the slot changed, and room enough
 *   insert_cut SIZE NAME GROUP ..           the same with a slot of so many bytes, zeros after its own
 *   remove, remove_byte, remove_cut         remove, likewise
 */
#include <inttypes.h>
#include <stdio.h>
#include <string.h>

#include "../reference/listing.h"
#include "../reference/numbers.h"
#include "book_parts.h"
#include "bytes.h"
#include "lines.h"

enum { GIVEN_LINE = 77 };

static Bytes page, form, slot, written;

/* ---- forms in a line */

static void read_group(uint32_t *line)
{
    Name first = read_name();
    size_t length = last_passed() == '+' ? (size_t)read_number() : 1;
    size_t lines = last_passed() == ':' ? (size_t)read_number() : length;
    add_group(&form, &first, length, lines);
    for (size_t i = 0; i < lines; i++)
        add_group_line(&form, (*line)++);
}

static void read_form(void)
{
    uint32_t line = 1;
    form.length = 0;
    while (!line_ended())
        read_group(&line);
}

/* Line numbers that follow each other, three or more of them: the first and the last. */
static void show_lines(const uint8_t *lines, size_t count)
{
    size_t end;
    for (size_t start = 0; start < count; start = end) {
        uint32_t line = from_bytes(lines + start * LINE_BYTES, LINE_BYTES);
        end = start + 1;
        while (end < count && from_bytes(lines + end * LINE_BYTES, LINE_BYTES) == line + (end - start))
            end++;
        if (end - start < 3)
            end = start + 1;
        printf(" %" PRIu32, line);
        if (end - start > 1)
            printf("..%" PRIu32, (uint32_t)(line + (end - start) - 1));
    }
    putchar('\n');
}

static void show_form(void)
{
    Span rest = {written.bytes, written.length};
    Group group;
    while (rest.length > 0 && take_group(&rest, &group) == NULL) {
        list_name(&group.first, stdout);
        printf("+%zu", group.length);
        show_lines(group.lines, group.length);
    }
}

/* ---- grouping */

static void say_counts(Outcome outcome)
{
    printf(": %d %zu %zu\n", outcome.answer, outcome.count, changed_after(outcome.count));
}

static void say_form_bytes(Outcome outcome)
{
    take_output(&written, outcome.count);
    say_counts(outcome);
    for (size_t i = 0; i < written.length; i++)
        printf("%02" PRIx8, written.bytes[i]);
    if (written.length > 0)
        putchar('\n');
}

static void group_line(void)
{
    size_t room = read_room();
    read_book(&page);
    say_form_bytes(hold_group(&page, room));
}

static void group_byte_line(void)
{
    size_t at = read_size();
    uint8_t value = (uint8_t)read_number();
    read_book(&page);
    page.bytes[at] = value;
    say_form_bytes(hold_group(&page, MOST_ROOM));
}

static void group_line_line(void)
{
    uint32_t line = (uint32_t)read_number();
    read_names(&page, SLOT_LIMIT, line);
    say_form_bytes(hold_group(&page, MOST_ROOM));
}

static void group_cut_line(void)
{
    fill_slots(&page, SLOT_LIMIT + 1, long_logged_name(0));
    page.length = read_room();
    say_counts(hold_group(&page, read_room()));
}

/* ---- there and back */

static void say_page_and_back(size_t room)
{
    Outcome grouped = hold_group(&page, room);
    take_output(&form, grouped.count);
    printf(": %d %zu %zu", grouped.answer, grouped.count, changed_after(grouped.count));
    Outcome ungrouped = hold_ungroup(&form, page.length);
    take_output(&written, ungrouped.count * SLOT_BYTES);
    bool same = written.length == page.length && memcmp(written.bytes, page.bytes, page.length) == 0;
    printf(" %d %zu %zu %d\n", ungrouped.answer, ungrouped.count, changed_after(written.length), same);
}

static void single_line(void)
{
    size_t slots = (size_t)read_number();
    size_t room = read_room();
    fill_slots(&page, slots, read_name());
    say_page_and_back(room);
}

static void run_line(void)
{
    size_t slots = (size_t)read_number();
    size_t room = read_room();
    Name first = read_name();
    page.length = 0;
    for (size_t i = 0; i < slots; i++) {
        Name name = name_after(&first, i);
        add_slot(&page, (uint32_t)i + 1, &name);
    }
    say_page_and_back(room);
}

static void back_line(void)
{
    read_form();
    Outcome outcome = hold_ungroup_and_back(&form);
    bool accepted = outcome.answer == ACCEPTED;
    take_output(&written, accepted ? form.length : 0);
    bool same = accepted && memcmp(written.bytes, form.bytes, form.length) == 0;
    printf(": %d %zu %d\n", outcome.answer, outcome.count, same);
}

/* ---- ungrouping */

/* A slot that no line's form has, below all of them. */
static void make_low_slot(void)
{
    Tuple t = {1, 1, 0, 0};
    Name name = row_of(t);
    slot.length = 0;
    add_slot(&slot, GIVEN_LINE, &name);
}

static void say_ungrouped(size_t room)
{
    make_low_slot();
    int inserted = hold_group_insert(&form, &slot, MOST_ROOM).answer;
    int removed = hold_group_remove(&form, &slot, MOST_ROOM).answer;
    Outcome outcome = hold_ungroup(&form, room);
    take_output(&written, outcome.count * SLOT_BYTES);
    printf(": %d %zu %zu %d %d\n", outcome.answer, outcome.count, changed_after(written.length), inserted, removed);
    if (written.length > 0)
        list_page(written.bytes, written.length, stdout);
}

static void ungroup_line(void)
{
    size_t room = read_room();
    read_form();
    say_ungrouped(room);
}

static void read_line(void)
{
    size_t room = read_room();
    read_hex(&form);
    say_ungrouped(room);
}

static void byte_line(void)
{
    size_t at = read_size();
    uint8_t value = (uint8_t)read_number();
    read_form();
    form.bytes[at] = value;
    say_ungrouped(MOST_ROOM);
}

static void cuts_line(void)
{
    size_t refused = 0;
    read_form();
    size_t whole = form.length;
    make_low_slot();
    for (form.length = 0; form.length < whole; form.length++) {
        hold_group_insert(&form, &slot, MOST_ROOM);
        hold_group_remove(&form, &slot, MOST_ROOM);
        if (hold_ungroup(&form, MOST_ROOM).answer == MALFORMED)
            refused++;
    }
    printf(": %zu %zu\n", refused, whole);
}

/* ---- edits */

typedef Outcome Edit_call(const Bytes *form, const Bytes *slot, size_t room);

static void say_edited(Outcome outcome)
{
    take_output(&written, outcome.count);
    say_counts(outcome);
    show_form();
}

static void edit_line(Edit_call *edit)
{
    size_t room = read_room();
    read_given_slot(&slot, GIVEN_LINE);
    read_form();
    say_edited(edit(&form, &slot, room));
}

static void edit_byte_line(Edit_call *edit)
{
    size_t at = read_size();
    uint8_t value = (uint8_t)read_number();
    read_given_slot(&slot, GIVEN_LINE);
    slot.bytes[at] = value;
    read_form();
    say_edited(edit(&form, &slot, MOST_ROOM));
}

static void edit_cut_line(Edit_call *edit)
{
    size_t size = read_room();
    read_given_slot(&slot, GIVEN_LINE);
    if (size > slot.length)
        memset(slot.bytes + slot.length, 0, size - slot.length);
    slot.length = size;
    read_form();
    say_edited(edit(&form, &slot, MOST_ROOM));
}

static void insert_line(void)
{
    edit_line(hold_group_insert);
}

static void insert_byte_line(void)
{
    edit_byte_line(hold_group_insert);
}

static void insert_cut_line(void)
{
    edit_cut_line(hold_group_insert);
}

static void remove_line(void)
{
    edit_line(hold_group_remove);
}

static void remove_byte_line(void)
{
    edit_byte_line(hold_group_remove);
}

static void remove_cut_line(void)
{
    edit_cut_line(hold_group_remove);
}

const LineKind group_lines[] = {
    {"group", group_line},
    {"group_byte", group_byte_line},
    {"group_line", group_line_line},
    {"group_cut", group_cut_line},
    {"single", single_line},
    {"run", run_line},
    {"back", back_line},
    {"ungroup", ungroup_line},
    {"read", read_line},
    {"byte", byte_line},
    {"cuts", cuts_line},
    {"insert", insert_line},
    {"insert_byte", insert_byte_line},
    {"insert_cut", insert_cut_line},
    {"remove", remove_line},
    {"remove_byte", remove_byte_line},
    {"remove_cut", remove_cut_line},
    {NULL, NULL},
};
