/*
 * The lines about books. What comes back is the answer's number and its count, and then, where a page or a new name was
 * written, its listing.
 *
 *   slot NAME                  the check of a slot of line 7 with that name: its insertion into an empty page, not shown
 *   byte AT VALUE NAME         the same with one byte changed
 *   page NAME ..               the check of a page of these names
 *   log LINE NAME ..           the check of a log of these names, all with that line number
 *   cut BYTES                  the check of a page of so many of the bytes of 257 slots
 *   trim BYTES                 the check of a log of so many of the bytes of 257 slots
 *   find NAME NAME ..          the place of the first among the others, which insert and remove show: 0 and its slot, 1 and its
 *                              gap
 *   insert ROOM NAME NAME ..   line 7 with the first name into a page of the others, lines 1, 2, ..; ROOM bytes of output
 *   remove ROOM NAME NAME ..   the slot of the first name out of a page of the others
 *   add N AT ROOM              insert of (9, 2, AT, 0) into a page of N slots (9, 2, 0, 0), (9, 2, 1, 0), .. , not shown
 *   drop N AT ROOM             remove of it, not shown
 *   new GAP NODE NAME ..       a new name by the author (NODE, 11) in a page of these names
 *   rename ROOM NODE SEQUENCE N NAME ..   rename by the author (NODE, SEQUENCE): the first N names are the log, the others the page
 *   take ROOM NODE SEQUENCE N NAME ..     taking back, likewise
 *   long N NODE SEQUENCE NAME ..          rename with a log of N slots (9, 2, 0, 0), (9, 2, 1, 0), ..
 *   wide N NODE SEQUENCE NAME ..          taking back, likewise
 */
#include <stdio.h>
#include <string.h>

#include "../reference/listing.h"
#include "book_parts.h"
#include "bytes.h"
#include "lines.h"

static Bytes page, log_bytes, slot, written;

static void show(size_t slots)
{
    take_output(&written, slots * SLOT_BYTES);
    list_page(written.bytes, written.length, stdout);
}

static void say_page(Outcome outcome)
{
    say(outcome);
    if (outcome.count > 0)
        show(outcome.count);
}

/* ---- checks */

static void say_slot(void)
{
    page.length = 0;
    say(hold_insert(&page, &slot, SLOT_BYTES));
}

static void slot_line(void)
{
    read_given_slot(&slot, 7);
    say_slot();
}

static void byte_line(void)
{
    size_t at = read_size();
    uint8_t value = (uint8_t)read_number();
    read_given_slot(&slot, 7);
    slot.bytes[at] = value;
    say_slot();
}

static void page_line(void)
{
    read_book(&page);
    say(hold_check_page(&page));
}

static void log_line(void)
{
    uint32_t line = (uint32_t)read_number();
    read_names(&log_bytes, SLOT_LIMIT, line);
    say(hold_check_log(&log_bytes));
}

static void cut_line(void)
{
    fill_slots(&page, SLOT_LIMIT + 1, long_logged_name(0));
    page.length = read_room();
    say(hold_check_page(&page));
}

static void trim_line(void)
{
    fill_slots(&log_bytes, SLOT_LIMIT + 1, long_logged_name(0));
    log_bytes.length = read_room();
    say(hold_check_log(&log_bytes));
}

/* ---- places */

/* In how many slots the page and what was written begin alike. */
static size_t alike(void)
{
    size_t at = 0;
    while (at < page.length && at < written.length && memcmp(page.bytes + at, written.bytes + at, SLOT_BYTES) == 0)
        at += SLOT_BYTES;
    return at / SLOT_BYTES;
}

/* One of the two calls is accepted, and what it writes differs from the page at the place. */
static void find_line(void)
{
    read_given_slot(&slot, 7);
    read_book(&page);
    Outcome inserted = hold_insert(&page, &slot, page.length + SLOT_BYTES);
    take_output(&written, inserted.count * SLOT_BYTES);
    Outcome removed = hold_remove(&page, &slot, page.length);
    if (removed.answer == ACCEPTED)
        take_output(&written, removed.count * SLOT_BYTES);
    printf(": %d %zu\n", removed.answer == ACCEPTED ? 0 : 1, alike());
}

/* ---- edits and new names */

static void insert_line(void)
{
    size_t room = read_room();
    read_given_slot(&slot, 7);
    read_book(&page);
    say_page(hold_insert(&page, &slot, room));
}

static void remove_line(void)
{
    size_t room = read_room();
    read_given_slot(&slot, 7);
    read_book(&page);
    say_page(hold_remove(&page, &slot, room));
}

/* A page of many slots, and the slot; gives the room. */
static size_t read_many(void)
{
    fill_slots(&page, (size_t)read_number(), long_logged_name(0));
    Name name = long_logged_name((size_t)read_number());
    slot.length = 0;
    add_slot(&slot, 7, &name);
    return read_room();
}

static void add_line(void)
{
    size_t room = read_many();
    say(hold_insert(&page, &slot, room));
}

static void drop_line(void)
{
    size_t room = read_many();
    say(hold_remove(&page, &slot, room));
}

static void new_line(void)
{
    size_t gap = (size_t)read_number();
    uint16_t node = (uint16_t)read_number();
    read_book(&page);
    Outcome outcome = hold_new_name(&page, gap, node, 11, SLOT_BYTES);
    say(outcome);
    if (outcome.answer == ACCEPTED)
        show(1);
}

/* ---- renames */

typedef Outcome Renaming_call(const Bytes *page, const Bytes *log, uint16_t node, uint32_t sequence, size_t room);

static void renaming_line(Renaming_call *hold_call)
{
    size_t room = read_room();
    uint16_t node = (uint16_t)read_number();
    uint32_t sequence = (uint32_t)read_number();
    size_t logged = (size_t)read_number();
    read_names(&log_bytes, logged, 0);
    read_book(&page);
    say_page(hold_call(&page, &log_bytes, node, sequence, room));
}

static void rename_line(void)
{
    renaming_line(hold_rename);
}

static void take_line(void)
{
    renaming_line(hold_take_back);
}

static void long_renaming_line(Renaming_call *hold_call)
{
    fill_slots(&log_bytes, (size_t)read_number(), long_logged_name(0));
    uint16_t node = (uint16_t)read_number();
    uint32_t sequence = (uint32_t)read_number();
    read_book(&page);
    say_page(hold_call(&page, &log_bytes, node, sequence, PAGE_BYTES));
}

static void long_line(void)
{
    long_renaming_line(hold_rename);
}

static void wide_line(void)
{
    long_renaming_line(hold_take_back);
}

const LineKind book_lines[] = {
    {"slot", slot_line},     {"byte", byte_line}, {"page", page_line},     {"log", log_line},   {"cut", cut_line},
    {"trim", trim_line},     {"find", find_line}, {"insert", insert_line}, {"remove", remove_line}, {"add", add_line},
    {"drop", drop_line},     {"new", new_line},   {"rename", rename_line}, {"take", take_line}, {"long", long_line},
    {"wide", wide_line},     {NULL, NULL},
};
