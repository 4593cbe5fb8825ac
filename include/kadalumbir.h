/*
 * Kadalumbir: line books for walking magnetometers. A book is a page of numbered lines that several units edit; each
 * line has a name, and the order of the names is the order of the lines. Every call checks all the bytes that it is
 * given, and then either does what is said here or refuses with a number and writes nothing. Both are proved, for every
 * input. The library keeps no state and allocates nothing, and needs memset and memcpy from outside, no more.
 *
 * A line put into an empty book:
 *
 *     uint8_t slot[KADALUMBIR_SLOT_BYTES], book[KADALUMBIR_PAGE_BYTES];
 *     uint64_t result = kadalumbir_new_name(NULL, 0, 0, node, sequence, slot, sizeof slot);
 *     slot[7] = 42;                                   the line number, big-endian in bytes 4 to 7
 *     if (kadalumbir_answer_of(result) == KADALUMBIR_ACCEPTED)
 *         result = kadalumbir_insert(NULL, 0, slot, sizeof slot, book, sizeof book);
 *     size_t book_len = kadalumbir_count_of(result) * KADALUMBIR_SLOT_BYTES;
 *
 * Arguments. Bytes are given as a pointer and a length in bytes, of any length; a null pointer with length 0 is empty.
 * An output, `out` or a single number, must not overlap an input or another output. Pointers to single numbers must
 * not be null.
 *
 * Results. A call gives answer * 2^32 + count; kadalumbir_answer_of and kadalumbir_count_of take them out. An accepted
 * call has answer 0, writes what its count says (a new name: one slot) from the start of `out`, and leaves the bytes after
 * that as they were.
 * A refused call has count 0, leaves all of `out` as it was, and sets the single numbers that it gives to 0. Where more
 * than one refusal applies, the first in the order beside the function is given.
 *
 * Stack. The number beside each function is what the call and all that it calls put on the stack, in bytes: read off the
 * frames of the archive for x86-64 and rounded up, without the call's arguments and what memset and memcpy take.
 *
 * Bytes. All numbers are big-endian.
 *   tuple   12 bytes: position u16, node u16, sequence u32, offset i32 in two's complement. An ordinary tuple has
 *           position 1..65534, node at least 1, offset -1..2147483646. Markers are (0, 0, 0, 0) and
 *           (65535, 65535, 4294967295, 2147483647).
 *   name    1 to 16 tuples. The first and the last are ordinary, the last has offset at least 0; markers may stand between.
 *           Names compare at the first tuple that differs, by position, node, sequence, offset; a prefix is smaller.
 *   slot    200 bytes: depth 1..16, three zero bytes, line number u32, the name's tuples, zeros.
 *   page    0 to 256 slots with strictly rising names.
 *   old     an old page: the same with slots of 104 bytes, depth 1..8, as pages were while a name had at most 8 tuples. No
 *           bytes but the empty page are both: to the wrong call they are a broken layout.
 *   log     a page of 1 to 256 slots whose line numbers are all 0: the names that a rename makes short.
 *   table   1 to 32 entries of 10 bytes: node u16, sequence u32, parent's index u16, count u16. Entry 0 is all zero. Every
 *           other entry has node at least 1, a parent with a smaller index, a (node, sequence) that no other entry has, and
 *           a count of 1..256: the number of names in the log of that rename. An old table, of entries of 8 bytes with no
 *           count, is never one of these: it is a broken layout.
 *   message fields of tag u8, length u16, content, in this order: 1 kind (u8); 2 epoch and 3 author (each node u16,
 *           sequence u32; the first epoch is six zeros, an author's node is at least 1); 4 a name's tuples; for insert
 *           then 5 line number (u32). Insert and remove have one name, rename 1 to 256 rising ones.
 *   form    a page in groups, for a packet that a page does not fit. A group is a run of neighbouring slots whose names differ
 *           only in the last offset, each one more than the one before: fields as in a message, 6 the first name's tuples;
 *           7 how many slots (u16, at least 1); 8 their line numbers (u32 each), group after group. Groups are as long as
 *           possible, so a page has one form; no bytes are the form of the empty page.
 */
#ifndef KADALUMBIR_H
#define KADALUMBIR_H

#include <stddef.h>
#include <stdint.h>

#ifdef __cplusplus
extern "C" {
#endif

#define KADALUMBIR_TUPLE_BYTES 12
#define KADALUMBIR_TUPLES 16  /* the most of a name */
#define KADALUMBIR_SLOT_BYTES 200
#define KADALUMBIR_SLOTS 256  /* the most of a page or a log */
#define KADALUMBIR_PAGE_BYTES (KADALUMBIR_SLOTS * KADALUMBIR_SLOT_BYTES)
#define KADALUMBIR_OLD_TUPLES 8 /* the most of a name in an old page */
#define KADALUMBIR_OLD_SLOT_BYTES 104
#define KADALUMBIR_OLD_PAGE_BYTES (KADALUMBIR_SLOTS * KADALUMBIR_OLD_SLOT_BYTES)
#define KADALUMBIR_ENTRY_BYTES 10
#define KADALUMBIR_ENTRIES 32 /* the most of an epoch table */
#define KADALUMBIR_TABLE_BYTES (KADALUMBIR_ENTRIES * KADALUMBIR_ENTRY_BYTES)
#define KADALUMBIR_MESSAGE_BYTES 49942 /* of the longest message */
#define KADALUMBIR_FORM_BYTES 52992 /* of the longest form: 256 groups of one slot, each name of 16 tuples */

/* What comes back. */
typedef enum kadalumbir_answer {
    KADALUMBIR_ACCEPTED = 0,
    KADALUMBIR_BAD_LAYOUT = 1,       /* a page or old page (its order apart) or given slot breaks its layout */
    KADALUMBIR_NOT_RISING = 2,       /* names of a page or old page not strictly rising */
    KADALUMBIR_BAD_LOG = 3,          /* log breaks its layout, is empty, not rising, or has a line number other than 0 */
    KADALUMBIR_NO_AUTHOR = 4,        /* author node is 0 */
    KADALUMBIR_NOT_FRESH = 5,        /* rename not fresh: a name of page or log begins with the author's pair */
    KADALUMBIR_TOO_DEEP = 6,         /* some result needs more than sixteen tuples, or in an old page more than eight */
    KADALUMBIR_NOT_RISING_BACK = 7,  /* taken-back names not strictly rising */
    KADALUMBIR_SHORT = 8,            /* output shorter than the result */
    KADALUMBIR_PRESENT = 9,          /* insert: name present */
    KADALUMBIR_ABSENT = 10,          /* remove: name absent */
    KADALUMBIR_FULL = 11,            /* insert: page has 256 slots; a form of more than 256 slots */
    KADALUMBIR_NO_NEW_NAME = 12,     /* no new name by the rule */
    KADALUMBIR_BAD_TABLE = 13,       /* epoch table breaks its layout, or the count given to add is none of 1..256 */
    KADALUMBIR_NO_EPOCH = 14,        /* current or parent index not in the table */
    KADALUMBIR_MALFORMED = 15,       /* message, the parts given for one, or a form malformed */
    KADALUMBIR_NO_GAP = 16,          /* gap beyond the page */
    KADALUMBIR_LISTED = 17,          /* epoch to add already listed */
    KADALUMBIR_TABLE_FULL = 18       /* epoch table has 32 entries */
} kadalumbir_answer;

static inline kadalumbir_answer kadalumbir_answer_of(uint64_t result)
{
    return (kadalumbir_answer)(result >> 32);
}

static inline uint32_t kadalumbir_count_of(uint64_t result)
{
    return (uint32_t)(result & 0xffffffffu);
}

/* ---- checks: the count is that of the slots or entries that stand there; nothing is written */

/* Refuses 1, 2. Stack: 140 bytes. */
uint64_t kadalumbir_check_page(const uint8_t *page, size_t page_len);

/* Refuses 3. Stack: 150 bytes. */
uint64_t kadalumbir_check_log(const uint8_t *log, size_t log_len);

/* Refuses 13. Stack: 50 bytes. */
uint64_t kadalumbir_check_epochs(const uint8_t *table, size_t table_len);

/* ---- lines: the count is that of the page's slots in `out` */

/* Writes the page with the given slot, which is exactly one slot long, at its rising place.
 * Refuses 1 (page), 1 (slot), 2, 9, 11, 8. Stack: 220 bytes. */
uint64_t kadalumbir_insert(const uint8_t *page, size_t page_len, const uint8_t *slot, size_t slot_len, uint8_t *out,
                           size_t out_len);

/* Writes the page without the slot that has the given slot's name; the given line number is ignored.
 * Refuses 1 (page), 1 (slot), 2, 10, 8. Stack: 220 bytes. */
uint64_t kadalumbir_remove(const uint8_t *page, size_t page_len, const uint8_t *slot, size_t slot_len, uint8_t *out,
                           size_t out_len);

/* Writes one slot with line number 0 and a new name for the gap before slot `gap`, or after the last where `gap` is the
 * number of slots. The author's (node, sequence) is taken as given: that it was never used before, which keeps two
 * units' names apart, is the caller's affair. The count is 0, though a slot is written.
 * Refuses 1, 2, 4, 16, 12, 6, 8. Stack: 580 bytes. */
uint64_t kadalumbir_new_name(const uint8_t *page, size_t page_len, size_t gap, uint16_t node, uint32_t sequence,
                             uint8_t *out, size_t out_len);

/* ---- renames: the count is that of the page's slots, which keep their order and their line numbers in `out` */

/* Writes the page as the rename of the log by the author (node, sequence) makes it: the log's k-th name becomes one
 * tuple with offset k, and other names change so that the order stays. A name gains at most one tuple.
 * Refuses 1, 2, 3, 4, 5, 6, 8. Stack: 280 bytes. */
uint64_t kadalumbir_rename(const uint8_t *page, size_t page_len, const uint8_t *log, size_t log_len, uint16_t node,
                           uint32_t sequence, uint8_t *out, size_t out_len);

/* Writes the page, which has names of after that rename, with the names of before it.
 * Refuses 1, 2, 3, 4, 6, 7, 8. Stack: 540 bytes. */
uint64_t kadalumbir_take_back(const uint8_t *page, size_t page_len, const uint8_t *log, size_t log_len, uint16_t node,
                              uint32_t sequence, uint8_t *out, size_t out_len);

/* ---- old pages: the count is that of the slots, which keep their order, their names and their line numbers in `out` */

/* Writes the old page as a page. Refuses 1, 2, 8. Stack: 170 bytes. */
uint64_t kadalumbir_from_old(const uint8_t *old, size_t old_len, uint8_t *out, size_t out_len);

/* Writes the page as an old page, where every name has at most 8 tuples.
 * Refuses 1, 2, 6, 8. Stack: 170 bytes. */
uint64_t kadalumbir_to_old(const uint8_t *page, size_t page_len, uint8_t *out, size_t out_len);

/* ---- epochs: each entry of the table but the first is the rename of its node and sequence. Epochs compare by their paths
 * from entry 0, entry by entry: by count, then node, then sequence; a prefix is smaller. So of renames made at the same
 * time the one of the longer log stands, whatever the units' numbers are. */

enum { KADALUMBIR_STAY = 0, KADALUMBIR_UP = 1, KADALUMBIR_DOWN = 2 };

/* Sets the next step from entry `current` to the target, the greatest epoch, where all units go: stay there, up to the
 * parent (take that rename back), or down to a child (rename), and the index of the parent or child; the index is 0 for
 * stay. Following it comes to the target after at most 31 steps. The count is 0.
 * Refuses 13, 14. Stack: 80 bytes. */
uint64_t kadalumbir_next_step(const uint8_t *table, size_t table_len, size_t current, uint8_t *step, uint32_t *index);

/* Writes the table with one more entry, of (node, sequence) under entry `parent`. `count` is the number of names in the
 * rename's own log, 1..256: log_len / KADALUMBIR_SLOT_BYTES, or what kadalumbir_read_message counted in the rename's
 * message. It is the same on every unit; a unit that gave another number would choose another target, and end apart. The
 * count that comes back is that of the table's entries.
 * Refuses 13 (table), 14, 4, 13 (`count`), 17, 18, 8. Stack: 120 bytes. */
uint64_t kadalumbir_add_epoch(const uint8_t *table, size_t table_len, size_t parent, uint16_t node, uint32_t sequence,
                              uint16_t count, uint8_t *out, size_t out_len);

/* ---- messages */

enum { KADALUMBIR_INSERT = 1, KADALUMBIR_REMOVE = 2, KADALUMBIR_RENAME = 3 };

/* Writes the message of these parts; the names are slots with line number 0. The count is that of its bytes.
 * Refuses 15 (any parts that reading cannot give: a bad kind, epoch, author or name, a wrong number of names, names of a
 * rename not rising, a slot's line number other than 0, a line number other than 0 where the kind is not insert), 8.
 * Stack: 220 bytes. */
uint64_t kadalumbir_write_message(uint8_t kind, uint16_t epoch_node, uint32_t epoch_sequence, uint16_t author_node,
                                  uint32_t author_sequence, uint32_t line, const uint8_t *names, size_t names_len,
                                  uint8_t *out, size_t out_len);

/* Sets kind, epoch, author and line number (0 unless insert), and writes the names, in slots with line number 0. The count
 * is that of the slots. A message has one writing, so that writing what was read gives the same bytes.
 * Refuses 15, 8. Stack: 200 bytes. */
uint64_t kadalumbir_read_message(const uint8_t *message, size_t message_len, uint8_t *kind, uint16_t *epoch_node,
                                 uint32_t *epoch_sequence, uint16_t *author_node, uint32_t *author_sequence,
                                 uint32_t *line, uint8_t *out, size_t out_len);

/* ---- forms: a page in groups. What a form says is what its page says; the calls need no page to edit one. A form is read
 * to its end, however long it is. 15 is every form that grouping cannot give, the order and the number of its slots apart: a
 * field that is broken, missing, out of order or of another tag; bytes after the last group; what is no name, or has more
 * than 16 tuples; a length of 0; line numbers that are not four bytes for each slot; a run that would pass offset
 * 2147483646; a group that goes on where the group before it ends, so that the two would be one. Then 2 where the names do
 * not rise strictly, and 11 where there are more than 256 slots. */

/* Writes the page's form. The count is that of its bytes.
 * Refuses 1, 2, 8. Stack: 220 bytes. */
uint64_t kadalumbir_group(const uint8_t *page, size_t page_len, uint8_t *out, size_t out_len);

/* Writes the page of the form. The count is that of its slots. Grouping it again gives the same bytes, and so does
 * ungrouping what was grouped.
 * Refuses 15, 2, 11, 8. Stack: 400 bytes. */
uint64_t kadalumbir_ungroup(const uint8_t *form, size_t form_len, uint8_t *out, size_t out_len);

/* Writes the form of the page with the given slot, which is exactly one slot long, at its rising place: what grouping what
 * kadalumbir_insert writes would give. The count is that of the form's bytes.
 * Refuses 15, 2, 11 (more than 256 slots), 1 (slot), 9, 11 (256 slots), 8. Stack: 430 bytes. */
uint64_t kadalumbir_group_insert(const uint8_t *form, size_t form_len, const uint8_t *slot, size_t slot_len, uint8_t *out,
                                 size_t out_len);

/* Writes the form of the page without the slot that has the given slot's name; the given line number is ignored. The count
 * is that of the form's bytes.
 * Refuses 15, 2, 11, 1 (slot), 10, 8. Stack: 410 bytes. */
uint64_t kadalumbir_group_remove(const uint8_t *form, size_t form_len, const uint8_t *slot, size_t slot_len, uint8_t *out,
                                 size_t out_len);

#ifdef __cplusplus
}
#endif

#endif
