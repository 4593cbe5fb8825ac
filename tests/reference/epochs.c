#include "epochs.h"

#include "numbers.h"

Entry read_entry(const uint8_t *bytes)
{
    Entry entry;
    entry.node = (uint16_t)from_bytes(bytes, 2);
    entry.sequence = from_bytes(bytes + 2, 4);
    entry.parent = (uint16_t)from_bytes(bytes + 6, 2);
    entry.count = (uint16_t)from_bytes(bytes + 8, 2);
    return entry;
}

void write_entry(uint8_t *bytes, Entry entry)
{
    to_bytes(bytes, 2, entry.node);
    to_bytes(bytes + 2, 4, entry.sequence);
    to_bytes(bytes + 6, 2, entry.parent);
    to_bytes(bytes + 8, 2, entry.count);
}

/* 02, P1: "by that number first, then node, then sequence" */
static int compare_entries(Entry a, Entry b)
{
    if (a.count != b.count)
        return compare_numbers(a.count, b.count);
    if (a.node != b.node)
        return compare_numbers(a.node, b.node);
    return compare_numbers(a.sequence, b.sequence);
}

/* How many entries of the table have this node and sequence. */
static size_t times_listed(const Table *table, uint16_t node, uint32_t sequence)
{
    size_t times = 0;
    for (size_t i = 0; i < table->count; i++)
        if (table->entries[i].node == node && table->entries[i].sequence == sequence)
            times++;
    return times;
}

/* 02, P1: "the number of names in its rename's log (u16, 1..256)" */
static bool count_is_right(uint16_t count)
{
    return count >= 1 && count <= COUNT_LIMIT;
}

/* "Entry 0 is all zero."; 02, P1: "entry 0 stays all zero" */
static const char *wrong_with_first(Entry entry)
{
    if (entry.node != 0 || entry.sequence != 0 || entry.parent != 0)
        return "entry 0 not zero";
    return entry.count == 0 ? NULL : "a count in entry 0";
}

/* "Every other entry has node at least 1, a parent index below its own index, and a (node, sequence) that no other
 * entry has."; 02, P1: "a count outside 1..256 in an entry other than entry 0 is 13" */
static const char *wrong_with_entry(const Table *table, size_t i)
{
    Entry entry = table->entries[i];
    if (entry.node == 0)
        return "a node of 0";
    if (entry.parent >= i)
        return "a parent index not below its own";
    if (times_listed(table, entry.node, entry.sequence) != 1)
        return "a node and sequence that another entry has";
    if (count_is_right(entry.count))
        return NULL;
    return entry.count == 0 ? "a count of 0" : "a count above 256";
}

/* "An epoch table is 1..32 entries"; "A length that is no whole number of slots or entries breaks the layout." */
const char *wrong_with_table(const uint8_t *bytes, size_t length)
{
    if (length % ENTRY_BYTES != 0 || length < ENTRY_BYTES || length > TABLE_BYTES)
        return "another length";
    Table table;
    read_table(bytes, length, &table);
    const char *wrong = wrong_with_first(table.entries[0]);
    for (size_t i = 1; i < table.count && wrong == NULL; i++)
        wrong = wrong_with_entry(&table, i);
    return wrong;
}

int check_table(const uint8_t *bytes, size_t length)
{
    return wrong_with_table(bytes, length) == NULL ? ACCEPTED : TABLE_LAYOUT;
}

void read_table(const uint8_t *bytes, size_t length, Table *table)
{
    table->count = length / ENTRY_BYTES;
    for (size_t i = 0; i < table->count; i++)
        table->entries[i] = read_entry(bytes + i * ENTRY_BYTES);
}

/* "traced back through parents, each with a smaller index" */
static Path path_of(const Table *table, size_t index)
{
    Path back = {1, {index}}, path = {0, {0}};
    while (index != 0) {
        index = table->entries[index].parent;
        back.indices[back.count++] = index;
    }
    for (size_t i = back.count; i > 0; i--)
        path.indices[path.count++] = back.indices[i - 1];
    return path;
}

/* How many entries both paths begin with. */
static size_t shared_of(const Path *a, const Path *b)
{
    size_t shared = 0;
    while (shared < a->count && shared < b->count && a->indices[shared] == b->indices[shared])
        shared++;
    return shared;
}

/* "Paths compare entry by entry [..]; a proper prefix is smaller" */
static int compare_paths(const Table *table, const Path *a, const Path *b)
{
    for (size_t i = 0; i < a->count && i < b->count; i++) {
        int order = compare_entries(table->entries[a->indices[i]], table->entries[b->indices[i]]);
        if (order != 0)
            return order;
    }
    return compare_numbers((int64_t)a->count, (int64_t)b->count);
}

/* "The target is the greatest." */
static size_t target_of(const Table *table)
{
    size_t target = 0;
    for (size_t i = 1; i < table->count; i++) {
        Path path = path_of(table, i), greatest = path_of(table, target);
        if (compare_paths(table, &path, &greatest) > 0)
            target = i;
    }
    return target;
}

Path way_to_target(const Table *table, size_t current)
{
    Path from = path_of(table, current), to = path_of(table, target_of(table)), way = {0, {0}};
    size_t shared = shared_of(&from, &to);
    for (size_t i = from.count; i > shared; i--)
        way.indices[way.count++] = table->entries[from.indices[i - 1]].parent;
    for (size_t i = shared; i < to.count; i++)
        way.indices[way.count++] = to.indices[i];
    return way;
}

static const char *greater_by(Entry greater, Entry smaller)
{
    if (greater.count == smaller.count && greater.node == smaller.node)
        return "the sequence";
    if (greater.count == smaller.count)
        return greater.sequence < smaller.sequence ? "the node, against the sequence" : "the node";
    if (greater.node != smaller.node)
        return greater.node < smaller.node ? "the count, against the node" : "the count";
    return greater.sequence < smaller.sequence ? "the count, against the sequence" : "the count";
}

const char *above_by(const Table *table, size_t current)
{
    Path from = path_of(table, current), to = path_of(table, target_of(table));
    size_t shared = shared_of(&from, &to);
    if (shared == from.count)
        return "a proper prefix";
    return greater_by(table->entries[to.indices[shared]], table->entries[from.indices[shared]]);
}

static NextStep step_of(int answer, int step, size_t index)
{
    NextStep next = {answer, step, index};
    return next;
}

/* "next step 13, 14". A parent's index is the smaller one, a child's the greater. */
NextStep next_step(const uint8_t *bytes, size_t length, size_t current)
{
    if (check_table(bytes, length) != ACCEPTED)
        return step_of(TABLE_LAYOUT, 0, 0);
    Table table;
    read_table(bytes, length, &table);
    if (current >= table.count)
        return step_of(NO_EPOCH, 0, 0);
    Path way = way_to_target(&table, current);
    if (way.count == 0)
        return step_of(ACCEPTED, STAY, 0);
    return step_of(ACCEPTED, way.indices[0] < current ? UP : DOWN, way.indices[0]);
}

/* "Adding an epoch appends one entry in a second table."; 02, P1: "adding goes 13 (table), 14, 4, 13 (the given count),
 * 17, 18, 8" */
Outcome add_epoch(const uint8_t *bytes, size_t length, size_t parent, uint16_t node, uint32_t sequence, uint16_t count,
                  uint8_t *out, size_t room)
{
    if (check_table(bytes, length) != ACCEPTED)
        return refused(TABLE_LAYOUT);
    Table table;
    read_table(bytes, length, &table);
    if (parent >= table.count)
        return refused(NO_EPOCH);
    if (node == 0)
        return refused(NO_AUTHOR);
    if (!count_is_right(count))
        return refused(TABLE_LAYOUT);
    if (times_listed(&table, node, sequence) > 0)
        return refused(EPOCH_LISTED);
    if (table.count == ENTRY_LIMIT)
        return refused(TABLE_FULL);
    Entry added = {node, sequence, (uint16_t)parent, count};
    table.entries[table.count++] = added;
    if (room < table.count * ENTRY_BYTES)
        return refused(OUTPUT_SHORT);
    for (size_t i = 0; i < table.count; i++)
        write_entry(out + i * ENTRY_BYTES, table.entries[i]);
    Outcome outcome = {ACCEPTED, table.count};
    return outcome;
}
