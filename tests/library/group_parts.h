/* Random arguments of the calls on forms, near the edges: pages with runs of every length, beside each other and inside each
 * other; the forms of such pages, and forms that no page has; names at and next to the names of a page. Each case begins with
 * choose_numbers. */
#ifndef TESTS_LIBRARY_GROUP_PARTS_H
#define TESTS_LIBRARY_GROUP_PARTS_H

#include "hold.h"
#include "random_names.h"

/* A page of some slots, or of many: mostly 256 or next to it, one too many among them. */
void make_run_page(Bytes *page, bool many);

/* Two slots of a page swapped, or one put in the place of another. */
void swap_slots(Bytes *page);

/* The form of the slots of a page as they stand. Where cut is not 0, each run goes on into a group of its own once in so many
 * slots: a form that is not longest. */
void make_form(Bytes *form, const Bytes *page, size_t cut);

/* A form goes on with one more group: of any name and any length; and above all others, of about 256 slots. */
void add_any_group(Bytes *form);
void add_high_group(Bytes *form);

/* Something wrong: a field dropped, doubled, swapped, longer, shorter or with another head, a group's length or its first name
 * changed, a group with no slots, or the bytes as damage_bytes does. A few of these are harmless. */
void damage_form(Bytes *form);

/* A name next to one of the page's names, between two of a run or of two runs, or any other, now and then one of the page; it may
 * be no name. And a name of the page, now and then another. */
Name name_to_insert(const Bytes *page);
Name name_to_remove(const Bytes *page);

#endif
