/*
 * The lines about old pages. What comes back is the answer's number and its count, how many bytes of the output changed after
 * those that the count says, and, where any were written, their listing.
 *
 *   from ROOM NAME ..            an old page of these names, lines 1, 2, .., to a page; ROOM bytes of output
 *   to ROOM NAME ..              a page of these names to an old page, likewise
 *   from_byte AT VALUE NAME ..   the old page with one byte changed, and room enough
 *   to_byte AT VALUE NAME ..     the page, likewise
 *   from_line LINE NAME ..       an old page of slots that all have that line number, and room enough
 *   to_line LINE NAME ..         a page, likewise
 *   from_cut SIZE ROOM           so many of the bytes of 257 old slots, as an old page; not shown
 *   to_cut SIZE ROOM             so many of the bytes of 257 slots, as a page; not shown
 *   from_wrong SIZE ROOM         so many of the bytes of 257 slots, as an old page; not shown
 *   to_wrong SIZE ROOM           so many of the bytes of 257 old slots, as a page; not shown
 *   old_new_old NAME ..          an old page of these names to a page, and that to an old page: the answer's number and the
 *                                count of the first, and whether the same bytes came back, 1 or 0
 *   new_old_new NAME ..          a page to an old page, and that to a page, likewise
 *
 * An old page is made of slots that are cut to the bytes of old ones: a name of nine tuples makes an old slot of depth 9.
 */
#include <stdio.h>
#include <string.h>

#include "../reference/listing.h"
#include "book_parts.h"
#include "bytes.h"
#include "lines.h"

static Bytes page, old, written;

static void read_old_book(void)
{
    read_book(&page);
    make_old_page(&old, &page);
}

/* A page and an old page of 257 slots. */
static void fill_both(void)
{
    fill_slots(&page, SLOT_LIMIT + 1, long_logged_name(0));
    make_old_page(&old, &page);
}

static void say_counts(Outcome outcome, size_t bytes)
{
    printf(": %d %zu %zu\n", outcome.answer, outcome.count, changed_after(bytes));
}

/* Of a conversion to slots of this limit. */
static void say_written(Outcome outcome, size_t limit)
{
    take_output(&written, outcome.count * SLOT_BYTES_OF(limit));
    say_counts(outcome, written.length);
    if (written.length > 0)
        list_page_of(limit, written.bytes, written.length, stdout);
}

/* ---- one conversion */

static void from_line(void)
{
    size_t room = read_room();
    read_old_book();
    say_written(hold_from_old(&old, room), DEPTH_LIMIT);
}

static void to_line(void)
{
    size_t room = read_room();
    read_book(&page);
    say_written(hold_to_old(&page, room), OLD_DEPTH_LIMIT);
}

static void from_byte_line(void)
{
    size_t at = read_size();
    uint8_t value = (uint8_t)read_number();
    read_old_book();
    old.bytes[at] = value;
    say_written(hold_from_old(&old, PAGE_BYTES), DEPTH_LIMIT);
}

static void to_byte_line(void)
{
    size_t at = read_size();
    uint8_t value = (uint8_t)read_number();
    read_book(&page);
    page.bytes[at] = value;
    say_written(hold_to_old(&page, OLD_PAGE_BYTES), OLD_DEPTH_LIMIT);
}

static void from_line_line(void)
{
    uint32_t line = (uint32_t)read_number();
    read_names(&page, SLOT_LIMIT, line);
    make_old_page(&old, &page);
    say_written(hold_from_old(&old, PAGE_BYTES), DEPTH_LIMIT);
}

static void to_line_line(void)
{
    uint32_t line = (uint32_t)read_number();
    read_names(&page, SLOT_LIMIT, line);
    say_written(hold_to_old(&page, OLD_PAGE_BYTES), OLD_DEPTH_LIMIT);
}

/* ---- sizes */

typedef Outcome Conversion(const Bytes *page, size_t room);

/* So many bytes of these slots, converted to slots of that many bytes. */
static void cut_line(Bytes *slots, Conversion *convert, size_t slot_bytes)
{
    fill_both();
    slots->length = read_room();
    Outcome outcome = convert(slots, read_room());
    say_counts(outcome, outcome.count * slot_bytes);
}

static void from_cut_line(void)
{
    cut_line(&old, hold_from_old, SLOT_BYTES);
}

static void to_cut_line(void)
{
    cut_line(&page, hold_to_old, OLD_SLOT_BYTES);
}

static void from_wrong_line(void)
{
    cut_line(&page, hold_from_old, SLOT_BYTES);
}

static void to_wrong_line(void)
{
    cut_line(&old, hold_to_old, OLD_SLOT_BYTES);
}

/* ---- there and back */

static void say_back(Outcome outcome, const Bytes *given)
{
    bool accepted = outcome.answer == ACCEPTED;
    take_output(&written, accepted ? given->length : 0);
    bool same = accepted && memcmp(written.bytes, given->bytes, given->length) == 0;
    printf(": %d %zu %d\n", outcome.answer, outcome.count, same);
}

static void old_new_old_line(void)
{
    read_old_book();
    say_back(hold_new_and_back(&old), &old);
}

static void new_old_new_line(void)
{
    read_book(&page);
    say_back(hold_old_and_back(&page), &page);
}

const LineKind old_page_lines[] = {
    {"from", from_line},
    {"to", to_line},
    {"from_byte", from_byte_line},
    {"to_byte", to_byte_line},
    {"from_line", from_line_line},
    {"to_line", to_line_line},
    {"from_cut", from_cut_line},
    {"to_cut", to_cut_line},
    {"from_wrong", from_wrong_line},
    {"to_wrong", to_wrong_line},
    {"old_new_old", old_new_old_line},
    {"new_old_new", new_old_new_line},
    {NULL, NULL},
};
