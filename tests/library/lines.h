/* The lines of text in tests/library/lines: each asks for calls, which are held to the plain C, and is written again with what
 * came back. */
#ifndef TESTS_LIBRARY_LINES_H
#define TESTS_LIBRARY_LINES_H

#include "hold.h"

/* The next number of the line, and the byte after it is passed over. */
int64_t read_number(void);

/* The byte that was passed over last. */
char last_passed(void);

/* The bytes up to the end of the line, two hex digits each; there may be blanks between them. */
void read_hex(Bytes *bytes);

bool line_ended(void);

/* The next name of the line, and a slot of it. A name is written as the listing shows it; TUPLE*N is the tuple N times. */
Name read_name(void);
void read_given_slot(Bytes *slot, uint32_t line);

/* The names up to the end of the line, or so many, as slots with the line numbers 1, 2, .. or all with this one. */
void read_book(Bytes *page);
void read_names(Bytes *log, size_t most, uint32_t line);

/* The next size or place of the line, in bytes, or in slots or old slots and bytes: 44, 2s, 2s-1, 256o+1. */
size_t read_size(void);

/* The bytes of an output of which so many are asked for. */
size_t read_room(void);

/* Write what comes back, after the line: a colon, the answer, the count. */
void say(Outcome outcome);

/* A kind of line: its word, and what reads and does what stands after it. A row of them ends with one that has no word. */
typedef struct {
    const char *word;
    void (*run)(void);
} LineKind;

extern const LineKind book_lines[], old_page_lines[], epoch_lines[], message_lines[], group_lines[];

#endif
