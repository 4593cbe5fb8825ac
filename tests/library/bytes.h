/* The bytes of inputs, and what may be wrong with them. */
#ifndef TESTS_LIBRARY_BYTES_H
#define TESTS_LIBRARY_BYTES_H

#include "hold.h"
#include "random_names.h"

/* A line number, the edges among them. */
uint32_t random_line(void);

void add_slot(Bytes *bytes, uint32_t line, const Name *name);
size_t slots_of(const Bytes *bytes);

void copy_bytes(const Bytes *from, Bytes *to);

/* A form goes on with a group up to its line numbers, which the length says to be so many and which are so many; and with one
 * line number. */
void add_group(Bytes *form, const Name *first, size_t length, size_t lines);
void add_group_line(Bytes *form, uint32_t line);

/* A slot of a page, alone. */
void copy_slot(const Bytes *page, size_t at, Bytes *slot);

/* Slots with random line numbers, and with line number 0. */
void make_page(Bytes *page, const Names *names);
void make_log(Bytes *log, const Names *names);

/* So many slots of line 0 with this name, its first tuple with the sequences 0, 1, .. */
void fill_slots(Bytes *bytes, size_t slots, Name name);

/* So many slots with the names of a long log, some or all of them deepened to this limit; mostly 256 or next to it. */
void make_long_page(Bytes *bytes, size_t slots, size_t limit, bool log);
size_t long_count(void);

/* Each slot cut to the bytes of an old one: an old page, where no name is too deep for it. */
void make_old_page(Bytes *old, const Bytes *page);

/* The slots of a page with line number 0: the log of a rename that makes all of its names short. */
void log_of(const Bytes *page, Bytes *log);

/* The last bytes cut off, so many or all of fewer. */
void cut_bytes(Bytes *bytes, size_t count);

/* A byte of one slot changed, mostly one before its tuples. */
void spoil_slot(Bytes *slots);

/* A byte changed, a few bytes cut off or added, or two pieces of so many bytes swapped. Some changes are harmless. */
void damage_bytes(Bytes *bytes, size_t piece);

/* The same once in so many times. */
void maybe_damage_bytes(size_t times, Bytes *bytes, size_t piece);

/* Room for a result: mostly enough, just enough or too little; or as much as a page, or as an output has. */
size_t room_for(size_t bytes);

/* The node of an author, now and then 0. */
uint16_t maybe_no_node(uint16_t node);

#endif
