/*
 * The lines about epochs.
 *
 *   table LESS ENTRY ..         the check of the table of these entries, less so many of its last bytes: the answer's number
 *                               and its count
 *   old ENTRY ..                the same of a table of before 02's P1, of entries NODE.SEQUENCE.PARENT in 8 bytes
 *   step INDEX ENTRY ..         the next step from that index: the answer's number; 0 for stay, 1 for up, 2 for down; and the
 *                               index that it leads to
 *   walk INDEX ENTRY ..         the steps from that index on, until one stays: the answer's number, and the indices passed
 *   add ROOM PARENT NODE SEQUENCE COUNT ENTRY ..   (NODE, SEQUENCE) with COUNT added under the parent with that index;
 *                               ROOM bytes of output: the answer's number and its count, how many bytes of the output
 *                               changed after those that the count says, and, where any were written, the table that
 *                               they are
 *
 * An entry is NODE.SEQUENCE.PARENT.COUNT.
 */
#include <inttypes.h>
#include <stdio.h>

#include "bytes.h"
#include "lines.h"

enum {
    OLD_ENTRY_BYTES = 8 /* 01: "entries of 8 bytes: node u16, sequence u32, parent index u16" */
};

static Bytes table, written;

static Entry read_line_entry(bool old)
{
    Entry entry;
    entry.node = (uint16_t)read_number();
    entry.sequence = (uint32_t)read_number();
    entry.parent = (uint16_t)read_number();
    entry.count = old ? 0 : (uint16_t)read_number();
    return entry;
}

/* The entries up to the end of the line. */
static void read_entries(void)
{
    for (table.length = 0; !line_ended(); table.length += ENTRY_BYTES)
        write_entry(table.bytes + table.length, read_line_entry(false));
}

/* The same of a table of before; each entry is written over the last two bytes of the one before it. */
static void read_old_entries(void)
{
    for (table.length = 0; !line_ended(); table.length += OLD_ENTRY_BYTES)
        write_entry(table.bytes + table.length, read_line_entry(true));
}

static void table_line(void)
{
    size_t less = (size_t)read_number();
    read_entries();
    cut_bytes(&table, less);
    say(hold_check_epochs(&table));
}

static void old_line(void)
{
    read_old_entries();
    say(hold_check_epochs(&table));
}

static void step_line(void)
{
    size_t current = (size_t)read_number();
    uint8_t step;
    uint32_t index;
    read_entries();
    Outcome outcome = hold_next_step(&table, current, &step, &index);
    printf(": %d %" PRIu8 " %" PRIu32 "\n", outcome.answer, step, index);
}

static void walk_line(void)
{
    size_t current = (size_t)read_number();
    Path walked;
    read_entries();
    printf(": %d", hold_walk(&table, current, &walked));
    for (size_t i = 0; i < walked.count; i++)
        printf(" %zu", walked.indices[i]);
    putchar('\n');
}

static void add_line(void)
{
    size_t room = read_room();
    size_t parent = (size_t)read_number();
    uint16_t node = (uint16_t)read_number();
    uint32_t sequence = (uint32_t)read_number();
    uint16_t count = (uint16_t)read_number();
    read_entries();
    Outcome outcome = hold_add_epoch(&table, parent, node, sequence, count, room);
    take_output(&written, outcome.count * ENTRY_BYTES);
    printf(": %d %zu %zu\n", outcome.answer, outcome.count, changed_after(written.length));
    for (size_t at = 0; at < written.length; at += ENTRY_BYTES) {
        Entry entry = read_entry(written.bytes + at);
        printf(" %" PRIu16 ".%" PRIu32 ".%" PRIu16 ".%" PRIu16, entry.node, entry.sequence, entry.parent, entry.count);
    }
    if (written.length > 0)
        putchar('\n');
}

const LineKind epoch_lines[] = {
    {"table", table_line}, {"old", old_line}, {"step", step_line},
    {"walk", walk_line},   {"add", add_line}, {NULL, NULL},
};
