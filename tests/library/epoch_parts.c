#include "epoch_parts.h"

/* 02, P1: "the number of names in its rename's log (u16, 1..256)", and what is outside. */
static const int64_t all_counts[] = {1, 256, 3, 2, 255, 128};
static const uint16_t above_all_counts[] = {257, 258, 512, 32768, 65535};

/* The numbers that were chosen. */
static Few nodes, sequences, counts;

/* One in how many entries has the entry before it as its parent, and one in how many others the first epoch. */
static size_t chained, starred;

void choose_epoch_numbers(void)
{
    nodes = choose_few(all_nodes, LENGTH(all_nodes));
    sequences = choose_few(all_sequences, LENGTH(all_sequences));
    counts = choose_few(all_counts, LENGTH(all_counts));
    chained = 1 + random_below(4);
    starred = 1 + random_below(4);
}

static bool is_listed(const Row *row, Entry entry)
{
    for (size_t i = 0; i < row->count; i++)
        if (row->entries[i].node == entry.node && row->entries[i].sequence == entry.sequence)
            return true;
    return false;
}

static uint16_t random_count(void)
{
    return (uint16_t)(once_in(4) ? all_counts[random_below(LENGTH(all_counts))] : one_of(&counts));
}

Entry random_epoch(const Row *row, uint16_t parent)
{
    Entry entry = {(uint16_t)one_of(&nodes), (uint32_t)one_of(&sequences), parent, random_count()};
    for (size_t trial = 0; is_listed(row, entry); trial++) {
        entry.node = (uint16_t)one_of(&nodes);
        entry.sequence = (uint32_t)one_of(&sequences) + (trial < 4 ? 0 : (uint32_t)random_below(2 * trial));
    }
    return entry;
}

static uint16_t random_parent(size_t index)
{
    if (once_in(chained))
        return (uint16_t)(index - 1);
    return (uint16_t)(once_in(starred) ? 0 : random_below(index));
}

static Row table_of(size_t count)
{
    Row row = {1, {{0, 0, 0, 0}}};
    while (row.count < count) {
        row.entries[row.count] = random_epoch(&row, random_parent(row.count));
        row.count++;
    }
    return row;
}

static Row random_table(void)
{
    if (once_in(8))
        return table_of(ENTRY_LIMIT - random_below(2));
    return table_of(1 + random_below(once_in(8) ? ENTRY_LIMIT : 7));
}

static uint16_t bad_count(void)
{
    return once_in(2) ? 0 : above_all_counts[random_below(LENGTH(above_all_counts))];
}

uint16_t maybe_bad_count(uint16_t count)
{
    if (!once_in(8))
        return count;
    return once_in(4) ? (uint16_t)(once_in(2) ? 1 : COUNT_LIMIT) : bad_count();
}

/* Breaks what an entry must be; a few of these are harmless. */
static void damage_table(Row *row)
{
    size_t i = random_below(row->count), other = random_below(row->count);
    Entry *entry = &row->entries[i];
    switch (random_below(11)) {
    case 0: row->entries[0].node = (uint16_t)one_of(&nodes); break;
    case 1: row->entries[0].sequence = (uint32_t)one_of(&sequences); break;
    case 2: row->entries[0].parent = (uint16_t)random_below(3); break;
    case 3: entry->node = 0; break;
    case 4: entry->parent = (uint16_t)(i + random_below(2)); break;
    case 5: entry->parent = 65535; break;
    case 6: *row = once_in(4) ? (Row){0, {{0, 0, 0, 0}}} : table_of(ENTRY_LIMIT + 1 + random_below(2)); break;
    case 7: row->entries[0].count = once_in(2) ? (uint16_t)one_of(&counts) : bad_count(); break;
    case 8:
    case 9: entry->count = bad_count(); break;
    default:
        entry->node = row->entries[other].node;
        if (!once_in(4))
            entry->sequence = row->entries[other].sequence;
        break;
    }
}

Row maybe_damaged_table(size_t times)
{
    Row row = random_table();
    if (once_in(times))
        damage_table(&row);
    return row;
}

uint32_t random_index(const Row *row)
{
    static const uint32_t beyond[] = {ENTRY_LIMIT, 65535, 65536, 4294967295};
    if (row->count > 0 && !once_in(10))
        return (uint32_t)random_below(row->count);
    return once_in(2) ? (uint32_t)row->count : beyond[random_below(LENGTH(beyond))];
}

Entry epoch_to_add(const Row *row)
{
    return row->count > 1 && once_in(5) ? row->entries[random_below(row->count)] : random_epoch(row, 0);
}
