#include "book_parts.h"

/* ---- edits */

EditParts edit_parts(bool insert)
{
    EditParts parts;
    parts.page = random_names(NAMES);
    Names *page = &parts.page;
    parts.name = page->count > 0 && once_in(insert ? 5 : 2) ? page->names[random_below(page->count)] : random_name();
    if (once_in(8))
        damage(page);
    if (once_in(8))
        break_name(&parts.name);
    return parts;
}

/* ---- new names */

/* Names of which each is a part of the next, or next to it: where new names are hard to find. */
static Names close_names(void)
{
    static const Tuple low[] = {{1, 1, 0, -1}, {1, 2, 0, 0}, {1, 1, 0, 1}, {2, 1, 0, 0}, {3, 1, 0, 0}};
    Names row = random_names(3);
    for (size_t i = 0; i < 3; i++) {
        Name name = row.count > 0 ? row.names[random_below(row.count)] : random_name();
        Name after = row_of(once_in(4) ? random_marker() : low[random_below(LENGTH(low))]);
        name = followed(&name, &after);
        if (once_in(2)) {
            after = row_of(random_ordinary());
            name = followed(&name, &after);
        }
        if (is_name(&name))
            row.names[row.count++] = name;
    }
    put_in_order(&row);
    return row;
}

GapParts gap_parts(void)
{
    GapParts parts;
    parts.page = once_in(2) ? close_names() : random_names(NAMES);
    parts.gap = (uint32_t)random_below(parts.page.count + 1);
    if (once_in(8))
        parts.gap = (uint32_t)(parts.page.count + 1 + random_below(2));
    if (once_in(8))
        damage(&parts.page);
    if (once_in(60))
        parts.gap = 4294967295;
    parts.node = (uint16_t)one_of(&nodes);
    return parts;
}

/* ---- renames */

/* The log and the author that the names of these parts are made from. */
static Renaming renaming;

static void set_log(const Names *log)
{
    renaming.log.count = log->count;
    for (size_t i = 0; i < log->count; i++) {
        renaming.log.slots[i].line = 0;
        renaming.log.slots[i].name = log->names[i];
    }
}

static Page page_of(const Names *row)
{
    Page page;
    page.count = row->count;
    for (size_t i = 0; i < row->count; i++) {
        page.slots[i].line = (uint32_t)i + 1;
        page.slots[i].name = row->names[i];
    }
    return page;
}

/* Any author of this line's numbers, or of numbers next to them. */
static void choose_author(void)
{
    renaming.node = (uint16_t)(once_in(3) ? all_nodes[random_below(LENGTH(all_nodes))] : one_of(&nodes));
    renaming.sequence =
        (uint32_t)(once_in(3) ? all_sequences[random_below(LENGTH(all_sequences))] : one_of(&sequences));
}

/* An author that is fresh, if a few trials find one. */
static void choose_fresh_author(const Names *row)
{
    Page page = page_of(row);
    choose_author();
    for (size_t i = 0; i < 20 && !is_fresh(&page, &renaming); i++)
        choose_author();
}

/* Gives one of the names the author's own pair in its first tuple. */
static void make_stale(Names *row)
{
    if (row->count == 0)
        return;
    Tuple *t = &row->names[random_below(row->count)].tuples[0];
    t->node = renaming.node;
    t->sequence = renaming.sequence;
    put_in_order(row);
}

static const Name *logged_name(void)
{
    return &renaming.log.slots[random_below(renaming.log.count)].name;
}

/* Names of the log, names near it, and names whose first tuple has the log's first position. */
static Names parent_page(size_t most)
{
    Names page = random_names(most);
    for (size_t i = 0; i < page.count; i++) {
        if (once_in(3))
            page.names[i] = *logged_name();
        else if (once_in(4))
            page.names[i].tuples[0].position = logged_name()->tuples[0].position;
    }
    put_in_order(&page);
    return page;
}

/* A row that begins as names of the child epoch do: N(k) or (p, A, s, -1), and a tail, which may be what another name
 * comes back as. */
static Name child_row(void)
{
    int32_t k = (int32_t)random_below(renaming.log.count + 2) - 1;
    Name start = new_row(&renaming, k), tail = *pooled_name(), marker = row_of(random_marker());
    switch (random_below(9)) {
    case 0:
        return start;
    case 1:
        tail = *logged_name();
        return followed(&start, &tail);
    case 2:
        tail = shifted(logged_name());
        return followed(&start, &tail);
    case 3:
        tail = joined_by_marker(logged_name(), &tail);
        return followed(&start, &tail);
    case 4:
        start = followed(&start, &marker);
        return followed(&start, &tail);
    case 5:
        tail = new_row(&renaming, (int32_t)random_below(renaming.log.count + 2));
        return followed(&start, &tail);
    case 6:
        return take_name_back(&renaming, &tail).name;
    case 7:
        tail = take_name_back(&renaming, &tail).name;
        return followed(&start, &tail);
    default:
        return followed(&start, &tail);
    }
}

/* A page renamed, then edited with names of both epochs. */
static Names child_page(size_t most)
{
    Names page = parent_page(most), child = {0, {{0, {{0, 0, 0, 0}}}}};
    for (size_t i = 0; i < page.count; i++) {
        Name name = rename_name(&renaming, &page.names[i]).name;
        if (is_name(&name)) {
            child.names[child.count++] = name;
            remember(name);
        }
    }
    for (size_t i = random_below(2 * NAMES); i > 0; i--) {
        Name name = once_in(4) ? random_name() : child_row();
        if (is_name(&name)) {
            child.names[child.count++] = name;
            remember(name);
        }
    }
    put_in_order(&child);
    keep_at_most(&child, most);
    return child;
}

static Names random_log(size_t most)
{
    Names log;
    do
        log = random_names(once_in(2) ? most : 2);
    while (log.count == 0);
    return log;
}

RenameParts rename_parts(bool back)
{
    RenameParts parts;
    parts.log = random_log(NAMES - 1);
    set_log(&parts.log);
    if (back) {
        if (once_in(4))
            choose_author();
        else
            choose_fresh_author(&parts.log);
        parts.page = child_page(NAMES - parts.log.count);
    } else {
        parts.page = parent_page(NAMES - parts.log.count);
        choose_fresh_author(&parts.page);
    }
    if (once_in(12))
        make_stale(once_in(2) ? &parts.log : &parts.page);
    if (once_in(12))
        damage(&parts.page);
    if (once_in(12))
        damage(&parts.log);
    if (once_in(25))
        parts.log.count = 0;
    parts.node = renaming.node;
    parts.sequence = renaming.sequence;
    return parts;
}

/* ---- renames with a long log */

/* (9, 2, 0, 0), (9, 2, 1, 0), .. */
Name long_logged_name(size_t k)
{
    Tuple t = {9, 2, (uint32_t)k, 0};
    return row_of(t);
}

/* Below all of them. */
static const Tuple before_log = {9, 1, 4294967295, 0};

static void set_long_log(size_t n)
{
    renaming.log.count = n;
    for (size_t i = 0; i < n; i++) {
        renaming.log.slots[i].line = 0;
        renaming.log.slots[i].name = long_logged_name(i);
    }
}

/* A name of the log, or right after it, or before it. */
static Name long_name(void)
{
    size_t n = renaming.log.count;
    size_t places[] = {0, 1, n / 2, n - 1, n, random_below(n)};
    Name logged = long_logged_name(places[random_below(LENGTH(places))]);
    return once_in(8) ? row_of(before_log) : logged;
}

/* N(k), or right before or after all of these. */
static Name long_start(void)
{
    int32_t n = (int32_t)renaming.log.count;
    int32_t places[] = {-1, 0, 1, n / 2, n - 1, n, (int32_t)random_below((size_t)n)};
    return new_row(&renaming, places[random_below(LENGTH(places))]);
}

/* N(-1) or N(k), and a tail right before the log, or at or next to r(k) or r(k + 1). */
static Name long_child(void)
{
    int32_t n = (int32_t)renaming.log.count;
    int32_t places[] = {-1, 0, n / 2, n - 2, n - 1};
    int32_t k = places[random_below(LENGTH(places))];
    Name start = new_row(&renaming, k), tail = row_of(before_log);
    if (k >= 0)
        tail = long_logged_name((size_t)k + random_below(2));
    if (once_in(2))
        tail = shifted(&tail);
    return followed(&start, &tail);
}

static Name long_page_name(bool back)
{
    Name name = once_in(3) ? random_name() : long_name(), start = long_start();
    if (back && once_in(3))
        return long_child();
    if (back && !once_in(4))
        return once_in(2) ? child_row() : followed(&start, &name);
    if (once_in(30))
        return start;
    return once_in(20) ? deepened(name, DEPTH_LIMIT) : name;
}

LongParts long_parts(bool back)
{
    static const size_t sizes[] = {1, 2, 3, 127, 128, 255, 256, 256};
    size_t n = once_in(2) ? sizes[random_below(LENGTH(sizes))] : 1 + random_below(SLOT_LIMIT);
    set_long_log(n);
    for (size_t i = 0; i < 6; i++)
        remember(long_name());
    choose_author();
    if (renaming.node == 2 && !once_in(8))
        renaming.sequence = (uint32_t)(n + random_below(2));
    LongParts parts = {{0, {{0, {{0, 0, 0, 0}}}}}, n, renaming.node, renaming.sequence};
    for (size_t i = random_below(NAMES + 1); i > 0; i--) {
        Name name = long_page_name(back);
        if (is_name(&name)) {
            parts.page.names[parts.page.count++] = name;
            remember(name);
        }
    }
    put_in_order(&parts.page);
    if (once_in(10))
        damage(&parts.page);
    if (once_in(10))
        parts.logged = once_in(2) ? 0 : SLOT_LIMIT + 1;
    return parts;
}
