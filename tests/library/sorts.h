/* The sorts of cases that the driver draws. */
#ifndef TESTS_LIBRARY_SORTS_H
#define TESTS_LIBRARY_SORTS_H

/* One call with random arguments. */
void check_case(void);
void slot_case(void);
void insert_case(void);
void remove_case(void);
void gap_case(void);
void rename_case(void);
void take_back_case(void);
void from_old_case(void);
void to_old_case(void);
void table_case(void);
void step_case(void);
void add_case(void);
void write_case(void);
void read_case(void);
void group_case(void);
void ungroup_case(void);
void group_insert_case(void);
void group_remove_case(void);

/* The steps from an entry to the target; the reading of each proper beginning of a message; a rename of up to 257 names,
 * written and read back. */
void walk_case(void);
void cuts_case(void);
void many_case(void);

/* A form of any groups, to all calls that take one; the ungrouping of some beginnings of a form. */
void any_form_case(void);
void form_cuts_case(void);

/* One call with a page, a log, both or a form of up to 256 slots. */
void long_check_case(void);
void long_edit_case(void);
void long_rename_case(void);
void long_group_case(void);

/* Many calls, each with what the library gave before: now and then an old page converted; edits, and between them conversions
 * to an old page and back and to a form and back, a rename, whose epoch is added with the number of names in its log, edits, the
 * taking back; a table that grows, walked to its target each time; a message written, read, written again, damaged and read; a
 * page and its form that are edited side by side, and compared after each edit. */
void book_chain(void);
void epoch_chain(void);
void message_chain(void);
void form_chain(void);

#endif
