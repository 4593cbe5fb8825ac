/* Cases of one call on a book. */
#include "book_parts.h"
#include "bytes.h"
#include "sorts.h"

static Bytes page, log_bytes, slot;

static void hold_checks(void)
{
    if (once_in(2))
        hold_check_page(&page);
    else
        hold_check_log(&page);
}

void check_case(void)
{
    choose_numbers();
    Names names = maybe_damaged_names(NAMES);
    if (once_in(2))
        make_page(&page, &names);
    else
        make_log(&page, &names);
    maybe_damage_bytes(4, &page, SLOT_BYTES);
    hold_checks();
}

/* A slot alone: the check of it is its insertion into an empty page. */
void slot_case(void)
{
    choose_numbers();
    Name name = maybe_broken_name();
    slot.length = 0;
    add_slot(&slot, random_line(), &name);
    if (once_in(2))
        spoil_slot(&slot);
    page.length = 0;
    hold_insert(&page, &slot, SLOT_BYTES);
}

/* ---- edits */

static void edit_case(bool insert)
{
    choose_numbers();
    EditParts parts = edit_parts(insert);
    make_page(&page, &parts.page);
    slot.length = 0;
    add_slot(&slot, random_line(), &parts.name);
    maybe_damage_bytes(20, &page, SLOT_BYTES);
    maybe_damage_bytes(20, &slot, SLOT_BYTES);
    if (insert)
        hold_insert(&page, &slot, room_for(page.length + SLOT_BYTES));
    else
        hold_remove(&page, &slot, room_for(page.length > SLOT_BYTES ? page.length - SLOT_BYTES : 0));
}

void insert_case(void)
{
    edit_case(true);
}

void remove_case(void)
{
    edit_case(false);
}

void gap_case(void)
{
    choose_numbers();
    GapParts parts = gap_parts();
    make_page(&page, &parts.page);
    maybe_damage_bytes(20, &page, SLOT_BYTES);
    hold_new_name(&page, once_in(200) ? SIZE_MAX : parts.gap, maybe_no_node(parts.node), (uint32_t)one_of(&sequences),
                  room_for(SLOT_BYTES));
}

/* ---- renames */

static void hold_renaming(bool back, uint16_t node, uint32_t sequence)
{
    node = maybe_no_node(node);
    if (back)
        hold_take_back(&page, &log_bytes, node, sequence, room_for(page.length));
    else
        hold_rename(&page, &log_bytes, node, sequence, room_for(page.length));
}

static void renaming_case(bool back)
{
    choose_numbers();
    RenameParts parts = rename_parts(back);
    make_page(&page, &parts.page);
    make_log(&log_bytes, &parts.log);
    maybe_damage_bytes(30, &page, SLOT_BYTES);
    maybe_damage_bytes(30, &log_bytes, SLOT_BYTES);
    hold_renaming(back, parts.node, parts.sequence);
}

void rename_case(void)
{
    renaming_case(false);
}

void take_back_case(void)
{
    renaming_case(true);
}

/* ---- long pages and logs */

void long_check_case(void)
{
    choose_numbers();
    make_long_page(&page, long_count(), DEPTH_LIMIT, once_in(2));
    maybe_damage_bytes(4, &page, SLOT_BYTES);
    hold_checks();
}

/* A name of the page, a name next to one of them, or any other. */
static void make_long_slot(void)
{
    Name name = once_in(3) ? random_name() : long_logged_name(random_below(SLOT_LIMIT + 1));
    if (once_in(3))
        name = deepened(name, DEPTH_LIMIT);
    slot.length = 0;
    add_slot(&slot, random_line(), &name);
    if (slots_of(&page) > 0 && once_in(3))
        copy_slot(&page, random_below(slots_of(&page)), &slot);
}

void long_edit_case(void)
{
    choose_numbers();
    make_long_page(&page, long_count(), DEPTH_LIMIT, false);
    maybe_damage_bytes(20, &page, SLOT_BYTES);
    make_long_slot();
    switch (random_below(3)) {
    case 0: hold_insert(&page, &slot, room_for(page.length + SLOT_BYTES)); break;
    case 1: hold_remove(&page, &slot, room_for(page.length > SLOT_BYTES ? page.length - SLOT_BYTES : 0)); break;
    default: hold_new_name(&page, random_below(SLOT_LIMIT + 3), maybe_no_node(2), 0, room_for(SLOT_BYTES)); break;
    }
}

/* A long log; the page is short, or long too. */
void long_rename_case(void)
{
    bool back = once_in(2);
    choose_numbers();
    LongParts parts = long_parts(back);
    log_bytes.length = 0;
    for (size_t k = 0; k < parts.logged; k++) {
        Name name = long_logged_name(k);
        add_slot(&log_bytes, 0, &name);
    }
    make_page(&page, &parts.page);
    if (once_in(20))
        make_long_page(&page, long_count(), DEPTH_LIMIT, false);
    maybe_damage_bytes(30, &log_bytes, SLOT_BYTES);
    hold_renaming(back, parts.node, parts.sequence);
}
