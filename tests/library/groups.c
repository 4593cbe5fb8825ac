/* Cases of one call on a form or on a page to be grouped, and chains of them. */
#include "bytes.h"
#include "group_parts.h"
#include "sorts.h"

static Bytes page, form, slot, beginning;

/* A slot to insert or remove; its name is at most as deep as a slot has room for. */
static void make_near_slot(bool insert)
{
    Name name;
    do
        name = insert ? name_to_insert(&page) : name_to_remove(&page);
    while (name.depth > DEPTH_LIMIT);
    slot.length = 0;
    add_slot(&slot, random_line(), &name);
}

/* ---- the bytes that the plain C writes, so that the room is near them */

static size_t grouped_bytes(void)
{
    static uint8_t out[LONGEST_FORM];
    return group_page(page.bytes, page.length, out, sizeof out).count;
}

static size_t edited_bytes(bool insert)
{
    static uint8_t out[LONGEST_FORM];
    Outcome outcome = (insert ? insert_grouped : remove_grouped)(form.bytes, form.length, slot.bytes, slot.length, out,
                                                                 sizeof out);
    return outcome.count;
}

/* ---- one call */

static void hold_grouping(void)
{
    if (once_in(8))
        swap_slots(&page);
    maybe_damage_bytes(12, &page, SLOT_BYTES);
    hold_group(&page, room_for(grouped_bytes()));
}

/* The form of the page; often it is not, or has something wrong, or one group more. */
static void make_near_form(void)
{
    if (once_in(10))
        swap_slots(&page);
    make_form(&form, &page, once_in(10) ? 3 : 0);
    if (once_in(20))
        add_any_group(&form);
    if (once_in(25))
        add_high_group(&form);
    if (once_in(3))
        damage_form(&form);
}

static void hold_ungrouping(void)
{
    make_near_form();
    hold_ungroup(&form, room_for(page.length));
}

static void hold_form_edit(bool insert)
{
    make_near_slot(insert);
    make_near_form();
    maybe_damage_bytes(20, &slot, SLOT_BYTES);
    size_t room = room_for(edited_bytes(insert));
    if (insert)
        hold_group_insert(&form, &slot, room);
    else
        hold_group_remove(&form, &slot, room);
}

void group_case(void)
{
    choose_numbers();
    make_run_page(&page, false);
    hold_grouping();
}

void ungroup_case(void)
{
    choose_numbers();
    make_run_page(&page, false);
    hold_ungrouping();
}

void group_insert_case(void)
{
    choose_numbers();
    make_run_page(&page, false);
    hold_form_edit(true);
}

void group_remove_case(void)
{
    choose_numbers();
    make_run_page(&page, false);
    hold_form_edit(false);
}

/* ---- several calls with one form */

void any_form_case(void)
{
    choose_numbers();
    page.length = form.length = 0;
    for (size_t i = 1 + random_below(3); i > 0; i--)
        add_any_group(&form);
    make_near_slot(true);
    hold_ungroup(&form, MOST_ROOM);
    hold_group_insert(&form, &slot, MOST_ROOM);
    hold_group_remove(&form, &slot, MOST_ROOM);
}

void form_cuts_case(void)
{
    choose_numbers();
    make_run_page(&page, false);
    make_form(&form, &page, 0);
    copy_bytes(&form, &beginning);
    for (size_t i = 0; i < 20; i++) {
        beginning.length = random_below(form.length + 1);
        hold_ungroup(&beginning, page.length);
    }
}

/* ---- long pages and forms */

void long_group_case(void)
{
    choose_numbers();
    make_run_page(&page, true);
    switch (random_below(4)) {
    case 0: hold_grouping(); break;
    case 1: hold_ungrouping(); break;
    case 2: hold_form_edit(true); break;
    default: hold_form_edit(false); break;
    }
}

/* ---- chains */

/* The form with something wrong, from which the chain does not go on. */
static void try_spoilt(void)
{
    copy_bytes(&form, &beginning);
    damage_form(&beginning);
    switch (random_below(3)) {
    case 0: hold_ungroup(&beginning, MOST_ROOM); break;
    case 1: hold_group_insert(&beginning, &slot, MOST_ROOM); break;
    default: hold_group_remove(&beginning, &slot, MOST_ROOM); break;
    }
}

/* "Insert and remove should also work on the grouped form [..] and agree with the page": both are edited, and what comes of the
 * one must be what comes of the other. */
static void edit_both(bool insert)
{
    make_near_slot(insert);
    Outcome of_page = (insert ? hold_insert : hold_remove)(&page, &slot, MOST_ROOM);
    if (of_page.answer == ACCEPTED)
        take_output(&page, of_page.count * SLOT_BYTES);
    Outcome of_form = (insert ? hold_group_insert : hold_group_remove)(&form, &slot, MOST_ROOM);
    if (of_form.answer == ACCEPTED)
        take_output(&form, of_form.count);
    hold_number("whether page and form answer alike", of_page.answer == of_form.answer, 1);
    hold_alike(&page, &form);
}

void form_chain(void)
{
    choose_numbers();
    page.length = form.length = 0;
    if (!once_in(3)) {
        make_run_page(&page, once_in(20));
        if (slots_of(&page) > SLOT_LIMIT)
            page.length = PAGE_BYTES;
        take_output(&form, hold_group(&page, MOST_ROOM).count);
    }
    for (size_t i = 1 + random_below(20); i > 0; i--) {
        edit_both(!once_in(3));
        if (once_in(8))
            try_spoilt();
    }
}
