#include "random_names.h"

#include <stdlib.h>

/* ---- numbers and tuples */

static const int64_t all_positions[] = {9, 10, 8, 1, 2, 3, 32768, 65533, 65534};
static const int64_t all_offsets[] = {0, 0, 1, -1, 2, 255, 2147483645, 2147483646};

/* The numbers of this case. */
Few nodes, sequences;
static Few positions, offsets;
static size_t deepest;

Tuple random_ordinary(void)
{
    Tuple t = {(uint16_t)one_of(&positions), (uint16_t)one_of(&nodes), (uint32_t)one_of(&sequences),
               (int32_t)one_of(&offsets)};
    return t;
}

Tuple random_marker(void)
{
    return once_in(2) ? low_marker : high_marker;
}

/* ---- names; each function may make a row that is no name, and random_name tries again */

static Name pool[64];
static size_t pooled;

void remember(Name name)
{
    if (pooled < LENGTH(pool))
        pool[pooled++] = name;
}

const Name *pooled_name(void)
{
    return &pool[random_below(pooled)];
}

static Name random_row(size_t depth)
{
    Name row = {depth, {{0, 0, 0, 0}}};
    for (size_t i = 0; i < depth; i++)
        row.tuples[i] = 0 < i && i + 1 < depth && once_in(6) ? random_marker() : random_ordinary();
    if (row.tuples[depth - 1].offset < 0)
        row.tuples[depth - 1].offset = 0;
    return row;
}

Name followed(const Name *a, const Name *b)
{
    return a->depth + b->depth <= LONGEST_ROW ? joined(a, b) : *a;
}

static Name first_tuples(const Name *name, size_t depth)
{
    Name row = *name;
    row.depth = depth;
    return row;
}

Name shifted(const Name *name)
{
    Name row = *name;
    row.tuples[row.depth - 1].offset += once_in(2) ? 1 : -1;
    return row;
}

Name joined_by_marker(const Name *name, const Name *tail)
{
    Name start = once_in(2) ? shifted(name) : *name, marker = row_of(random_marker());
    start = followed(&start, &marker);
    return followed(&start, tail);
}

/* A name made from one that has come. */
static Name random_relative(void)
{
    const Name *other = pooled_name(), *second = pooled_name();
    Name row;
    switch (random_below(7)) {
    case 0:
        return shifted(other);
    case 1:
        return first_tuples(other, 1 + random_below(other->depth));
    case 2:
        row = random_row(1 + random_below(2));
        return followed(other, &row);
    case 3:
        return followed(other, second);
    case 4:
        return joined_by_marker(other, second);
    case 5:
        row = first_tuples(other, other->depth - 1);
        return followed(&row, second);
    default:
        row = *other;
        row.tuples[random_below(row.depth)] = random_ordinary();
        return row;
    }
}

Name random_name(void)
{
    Name name;
    do
        name = pooled > 0 && !once_in(3) ? random_relative() : random_row(1 + random_below(deepest));
    while (!is_name(&name));
    remember(name);
    return name;
}

Name deepened(Name name, size_t limit)
{
    size_t depth = limit - random_below(2);
    if (name.depth >= depth)
        return name;
    Name tail = random_row(depth - name.depth);
    return followed(&name, &tail);
}

Name shortened(Name name, size_t limit)
{
    if (name.depth <= limit)
        return name;
    Name start = first_tuples(&name, limit - 1), end = random_row(1);
    return followed(&start, &end);
}

void choose_numbers(void)
{
    static const size_t depths[] = {1, 1, 2, 2, 2, 3, 4, DEPTH_LIMIT - 1, DEPTH_LIMIT};
    positions = choose_few(all_positions, LENGTH(all_positions));
    nodes = choose_few(all_nodes, LENGTH(all_nodes));
    sequences = choose_few(all_sequences, LENGTH(all_sequences));
    offsets = choose_few(all_offsets, LENGTH(all_offsets));
    deepest = depths[random_below(LENGTH(depths))];
    pooled = 0;
}

/* ---- rows of names */

static int by_name(const void *a, const void *b)
{
    return compare_names(a, b);
}

/* In rising order, each once. */
void put_in_order(Names *row)
{
    qsort(row->names, row->count, sizeof *row->names, by_name);
    size_t kept = 0;
    for (size_t i = 0; i < row->count; i++)
        if (kept == 0 || compare_names(&row->names[kept - 1], &row->names[i]) != 0)
            row->names[kept++] = row->names[i];
    row->count = kept;
}

static void take_out(Names *row, size_t at)
{
    row->count--;
    for (size_t i = at; i < row->count; i++)
        row->names[i] = row->names[i + 1];
}

void keep_at_most(Names *row, size_t most)
{
    while (row->count > most)
        take_out(row, random_below(row->count));
}

Names random_names(size_t most)
{
    Names row = {random_below(most + 1), {{0, {{0, 0, 0, 0}}}}};
    for (size_t i = 0; i < row.count; i++) {
        row.names[i] = random_name();
        if (deepest > 4 && once_in(4))
            row.names[i] = deepened(row.names[i], DEPTH_LIMIT);
    }
    put_in_order(&row);
    return row;
}

Names names_within(size_t limit, size_t most)
{
    Names row = random_names(most);
    for (size_t i = 0; i < row.count; i++) {
        row.names[i] = shortened(row.names[i], limit);
        if (once_in(4))
            row.names[i] = deepened(row.names[i], limit);
    }
    put_in_order(&row);
    return row;
}

void break_name(Name *name)
{
    static const int64_t edges[] = {0, 1, 65534, 65535, -1, -2, 2147483646, 2147483647, INT32_MIN};
    Tuple *t = &name->tuples[random_below(name->depth)];
    int64_t edge = edges[random_below(LENGTH(edges))];
    switch (random_below(5)) {
    case 0: t->position = (uint16_t)(edge & 65535); break;
    case 1: t->node = (uint16_t)(edge & 65535); break;
    case 2: t->offset = (int32_t)edge; break;
    case 3: *t = random_marker(); break;
    default: name->tuples[name->depth - 1].offset = -1; break;
    }
}

void damage(Names *row)
{
    if (row->count == 0)
        return;
    Name *a = &row->names[random_below(row->count)], *b = &row->names[random_below(row->count)];
    if (once_in(2)) {
        break_name(a);
    } else {
        Name held = *a;
        *a = *b;
        if (once_in(2))
            *b = held;
    }
}

Name maybe_broken_name(void)
{
    Name name = random_name();
    if (once_in(2))
        break_name(&name);
    return name;
}

Names maybe_damaged_names(size_t most)
{
    Names row = random_names(most);
    if (once_in(3))
        damage(&row);
    return row;
}
