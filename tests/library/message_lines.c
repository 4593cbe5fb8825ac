/*
 * The lines about messages.
 *
 *   read ROOM HEX       the message of these bytes, two hex digits each, read into ROOM bytes of output: the answer's number and
 *                       its count; kind, epoch, author and line number as NUMBERS below; how many bytes of the output changed
 *                       after those that the count says; and, where any were written, the listing of the page that they are
 *   cuts HEX            each proper beginning of these bytes, read: how many were answered 15, and how many there are
 *   write ROOM LINE NUMBERS NAME ..         the message of these numbers, and of the names in slots that all have that line
 *                       number, written into ROOM bytes of output: the answer's number and its count, how many bytes changed
 *                       after those that the count says, and, where any were written, a line of them
 *   spoil AT VALUE ROOM LINE NUMBERS NAME ..   the same with one byte of the slots changed
 *   trim LESS ROOM LINE NUMBERS NAME ..        the same with so many of the slots' last bytes left out
 *   many N ROOM NAME    a rename of N names, the given one with its first tuple's sequence 0, 1, .., written into ROOM bytes and
 *                       read back into as many bytes as the slots have: for both the answer's number, its count and how many
 *                       bytes changed after those that the count says; and whether the slots came back, 1 or 0
 *
 * NUMBERS is KIND NODE SEQUENCE NODE SEQUENCE LINE: kind, epoch, author and line number.
 */
#include <inttypes.h>
#include <stdio.h>
#include <string.h>

#include "../reference/listing.h"
#include "bytes.h"
#include "lines.h"

static Bytes message, beginning, names, written;

static Pair read_pair(void)
{
    Pair pair;
    pair.node = (uint16_t)read_number();
    pair.sequence = (uint32_t)read_number();
    return pair;
}

static Numbers read_numbers(void)
{
    Numbers numbers;
    numbers.kind = (uint8_t)read_number();
    numbers.epoch = read_pair();
    numbers.author = read_pair();
    numbers.line = (uint32_t)read_number();
    return numbers;
}

/* ---- reading */

static void read_line(void)
{
    size_t room = read_room();
    Numbers numbers;
    read_hex(&message);
    Outcome outcome = hold_read_message(&message, &numbers, room);
    take_output(&written, outcome.count * SLOT_BYTES);
    printf(": %d %zu %" PRIu8 " %" PRIu16 " %" PRIu32 " %" PRIu16 " %" PRIu32 " %" PRIu32 " %zu\n", outcome.answer,
           outcome.count, numbers.kind, numbers.epoch.node, numbers.epoch.sequence, numbers.author.node,
           numbers.author.sequence, numbers.line, changed_after(written.length));
    if (written.length > 0)
        list_page(written.bytes, written.length, stdout);
}

/* Of a rename, a beginning that ends between two names is a message. */
static void cuts_line(void)
{
    size_t refused = 0;
    read_hex(&message);
    for (size_t length = 0; length < message.length; length++) {
        Numbers numbers;
        beginning.length = length;
        memcpy(beginning.bytes, message.bytes, length);
        if (hold_read_message(&beginning, &numbers, PAGE_BYTES).answer == MALFORMED)
            refused++;
    }
    printf(": %zu %zu\n", refused, message.length);
}

/* ---- writing */

/* The slots are changed in one byte, where they have it, and are so many bytes shorter. */
static void write_damaged(size_t at, uint8_t value, size_t less)
{
    size_t room = read_room();
    uint32_t line = (uint32_t)read_number();
    Numbers numbers = read_numbers();
    read_names(&names, SLOT_LIMIT, line);
    if (at < names.length)
        names.bytes[at] = value;
    cut_bytes(&names, less);
    Outcome outcome = hold_write_message(&numbers, &names, room);
    take_output(&written, outcome.count);
    printf(": %d %zu %zu\n", outcome.answer, outcome.count, changed_after(written.length));
    for (size_t i = 0; i < written.length; i++)
        printf("%02" PRIx8, written.bytes[i]);
    if (written.length > 0)
        putchar('\n');
}

static void write_line(void)
{
    write_damaged(SIZE_MAX, 0, 0);
}

static void spoil_line(void)
{
    size_t at = read_size();
    uint8_t value = (uint8_t)read_number();
    write_damaged(at, value, 0);
}

static void trim_line(void)
{
    size_t less = read_size();
    write_damaged(SIZE_MAX, 0, less);
}

static void many_line(void)
{
    size_t n = (size_t)read_number();
    size_t room = read_room();
    Numbers numbers = {RENAME, {0, 0}, {1, 1}, 0};
    fill_slots(&names, n, read_name());
    Outcome wrote = hold_write_message(&numbers, &names, room);
    take_output(&message, wrote.count);
    printf(": %d %zu %zu", wrote.answer, wrote.count, changed_after(wrote.count));
    Outcome read = hold_read_message(&message, &numbers, names.length);
    take_output(&written, read.count * SLOT_BYTES);
    bool same = written.length == names.length && memcmp(written.bytes, names.bytes, names.length) == 0;
    printf(" %d %zu %zu %d\n", read.answer, read.count, changed_after(written.length), same);
}

const LineKind message_lines[] = {
    {"read", read_line},   {"cuts", cuts_line}, {"write", write_line}, {"spoil", spoil_line},
    {"trim", trim_line},   {"many", many_line}, {NULL, NULL},
};
