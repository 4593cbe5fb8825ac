/* Cases of one call on an epoch table, and chains of them. */
#include "bytes.h"
#include "epoch_parts.h"
#include "sorts.h"

static Bytes table;

static void make_table(const Row *row)
{
    table.length = row->count * ENTRY_BYTES;
    for (size_t i = 0; i < row->count; i++)
        write_entry(table.bytes + i * ENTRY_BYTES, row->entries[i]);
}

/* An entry is damaged once in so many times, and the bytes once in so many. */
static Row begin_table(size_t entry, size_t bytes)
{
    choose_epoch_numbers();
    Row row = maybe_damaged_table(entry);
    make_table(&row);
    maybe_damage_bytes(bytes, &table, ENTRY_BYTES);
    return row;
}

void table_case(void)
{
    begin_table(2, 2);
    hold_check_epochs(&table);
}

static size_t any_index(const Row *row)
{
    return once_in(200) ? SIZE_MAX : random_index(row);
}

void step_case(void)
{
    Row row = begin_table(10, 20);
    uint8_t step;
    uint32_t index;
    hold_next_step(&table, any_index(&row), &step, &index);
}

void walk_case(void)
{
    Row row = begin_table(10, 20);
    Path walked;
    hold_walk(&table, any_index(&row), &walked);
}

void add_case(void)
{
    Row row = begin_table(10, 20);
    Entry added = epoch_to_add(&row);
    hold_add_epoch(&table, any_index(&row), maybe_no_node(added.node), added.sequence, maybe_bad_count(added.count),
                   room_for(table.length + ENTRY_BYTES));
}

/* ---- chains */

void epoch_chain(void)
{
    Row row = {1, {{0, 0, 0, 0}}};
    Path walked;
    choose_epoch_numbers();
    make_table(&row);
    size_t adds = once_in(4) ? ENTRY_LIMIT + 2 : random_below(8);
    for (size_t i = 0; i < adds; i++) {
        uint32_t parent = random_index(&row);
        Entry added = epoch_to_add(&row);
        Outcome outcome = hold_add_epoch(&table, parent, maybe_no_node(added.node), added.sequence,
                                         maybe_bad_count(added.count), room_for(table.length + ENTRY_BYTES));
        if (outcome.answer != ACCEPTED)
            continue;
        take_output(&table, outcome.count * ENTRY_BYTES);
        row.entries[row.count++] = read_entry(table.bytes + table.length - ENTRY_BYTES);
        hold_walk(&table, random_below(row.count), &walked);
    }
    hold_check_epochs(&table);
}
