#include "inputs.h"

#include <string.h>

#include "../include/kadalumbir.h"
#include "../tests/reference/numbers.h"

enum {
    OTHER_NODE = 2,  /* of every name */
    FIRST_NODE = 100, /* of the epochs */
    LOGGERS = 3
};

/* A renamed book to which lines were added is taken back. */
static bool is_edited(Operation operation)
{
    return operation == TAKE_BACK_EDITED || operation == TAKE_BACK_MARKED || operation == TAKE_BACK_MARKED_LOG;
}

size_t shapes_of(Operation operation)
{
    if (operation >= CHECK_EPOCHS)
        return CHAIN + 1;
    /* An old page has names of at most eight tuples; and a deepest name that is put behind another is too deep. */
    return operation == FROM_OLD || operation == TO_OLD || is_edited(operation) ? DEEP + 1 : SHAPES;
}

static bool is_of_form(Operation operation)
{
    return operation >= GROUP_PAGE && operation <= GROUP_REMOVE;
}

Depths depths_of(Operation operation, Shape shape)
{
    static const Depths depths[SHAPES] = {
        [SHALLOW] = {0, 1},
        [DEEP] = {4, 8},
        [DEEPEST] = {DEPTH_LIMIT - 4, DEPTH_LIMIT},
    };
    Depths given = depths[is_of_form(operation) ? SHALLOW : shape];
    /* A rename may add a tuple. */
    if (shape != SHALLOW && (operation == RENAME_PAGE || operation == TAKE_BACK || is_edited(operation)))
        given.deepest--;
    return given;
}

/* A name with this place among all names of such depths. */
static Slot slot_at(size_t place, uint32_t line, Depths depths)
{
    Slot slot = {line, {depths.deepest - place / 2 % (depths.deepest - depths.shared), {{0, 0, 0, 0}}}};
    for (size_t i = 0; i < slot.name.depth; i++) {
        Tuple t = {(uint16_t)(i == depths.shared ? 1 + 100 * place : 1000 + i), OTHER_NODE, (uint32_t)i, 0};
        slot.name.tuples[i] = t;
    }
    return slot;
}

static void add_slot(Part *part, const Slot *slot)
{
    write_slot(part->bytes + part->length, slot);
    part->length += SLOT_BYTES;
}

/* Names at every other place, with line numbers. */
static void make_page(size_t lines, Depths depths, Part *page)
{
    page->length = 0;
    for (size_t i = 0; i < lines; i++) {
        Slot slot = slot_at(2 * i, (uint32_t)i + 1, depths);
        add_slot(page, &slot);
    }
}

/* Of each two lines of such a page, the first one's name, and one above the second's. */
static void make_log(size_t lines, Depths depths, Part *log)
{
    log->length = 0;
    for (size_t i = 0; i < lines; i++) {
        Slot slot = slot_at(i % 2 == 0 ? 2 * i : 2 * i + 1, 0, depths);
        add_slot(log, &slot);
    }
}

/* A line of a renamed book, N(k), or one that was inserted right behind it since, under the name that 01's rule makes there,
 * N(k)·(32768, node, sequence, 0). */
static void add_renamed(Part *page, size_t i, size_t k, bool is_added, Depths depths)
{
    Tuple logged = {slot_at(0, 0, depths).name.tuples[0].position, AUTHOR_NODE, AUTHOR_SEQUENCE, (int32_t)k};
    Tuple added = {32768, OTHER_NODE, (uint32_t)i, 0};
    Slot slot = {(uint32_t)i + 1, {1 + (size_t)is_added, {logged, added}}};
    add_slot(page, &slot);
}

/* A renamed book after lines were added: of each two lines, one that was logged and one inserted right behind it. The logged
 * ones that stood between are gone. */
static void make_edited(size_t lines, Depths depths, Part *page)
{
    page->length = 0;
    for (size_t i = 0; i < lines; i++)
        add_renamed(page, i, i - i % 2, i % 2 == 1, depths);
}

/* A renamed book, where one line in so many, the last of them, was added since; or none, of 0. */
static void make_renamed(size_t lines, size_t one_in, Depths depths, Part *page)
{
    size_t logged = 0;
    page->length = 0;
    for (size_t i = 0; i < lines; i++) {
        bool is_added = one_in > 0 && i % one_in == one_in - 1;
        logged += !is_added;
        add_renamed(page, i, logged - 1, is_added, depths);
    }
}

static void make_book(size_t lines, Shape shape, Depths depths, Part *page)
{
    if (shape == FRESH)
        make_page(lines, depths, page);
    else
        make_renamed(lines, shape == ADDED_TO ? 4 : 0, depths, page);
}

/* Gives every so many-th name of a page, from one on, an end marker, and behind it its last tuple again. */
static void mark_names(size_t from, size_t step, Part *page)
{
    const Tuple high = {65535, 65535, 4294967295, 2147483647};
    for (size_t i = from; i < page->length / SLOT_BYTES; i += step) {
        Slot slot;
        if (!read_slot(page->bytes + i * SLOT_BYTES, &slot))
            continue;
        slot.name.tuples[slot.name.depth] = high;
        slot.name.tuples[slot.name.depth + 1] = slot.name.tuples[slot.name.depth - 1];
        slot.name.depth += 2;
        write_slot(page->bytes + i * SLOT_BYTES, &slot);
    }
}

void clear_lines(Part *page)
{
    for (size_t at = 0; at < page->length; at += SLOT_BYTES)
        to_bytes(page->bytes + at + 4, 4, 0);
}

static void copy_slot(const Part *page, size_t i, Part *slot)
{
    slot->length = SLOT_BYTES;
    memcpy(slot->bytes, page->bytes + i * SLOT_BYTES, SLOT_BYTES);
}

static void cut_slot(Part *page, size_t i)
{
    uint8_t *at = page->bytes + i * SLOT_BYTES;
    page->length -= SLOT_BYTES;
    memmove(at, at + SLOT_BYTES, page->length - i * SLOT_BYTES);
}

/* Calls C in place on an input, whose first part then becomes what that gave, in pieces of so many bytes. */
static void become_result(Operation operation, size_t piece, Input *input)
{
    static Output output;
    input->first.length = kadalumbir_count_of(in_place_calls[operation](input, &output)) * piece;
    memcpy(input->first.bytes, output.bytes, input->first.length);
}

/* "node u16, sequence u32, parent index u16" and the count. */
static void add_entry(Part *table, uint16_t node, uint32_t sequence, uint16_t parent, uint16_t count)
{
    uint8_t *entry = table->bytes + table->length;
    to_bytes(entry, 2, node);
    to_bytes(entry + 2, 4, sequence);
    to_bytes(entry + 6, 2, parent);
    to_bytes(entry + 8, 2, count);
    table->length += KADALUMBIR_ENTRY_BYTES;
}

/* The renames of three loggers in turn, each with sequences of its own that rise, and counts that rise and fall, four times
 * the same: so that in a star, where each epoch is held against the greatest before it, the count decides of some, the node
 * of others and the sequence of others. */
static void make_table(size_t entries, Shape shape, Part *table)
{
    static const uint16_t counts[] = {12, 40, 3, 40, 256, 1, 256, 90};
    static const uint32_t sequences[LOGGERS] = {90, 3, 40};
    table->length = 0;
    add_entry(table, 0, 0, 0, 0);
    for (size_t i = 1; i < entries; i++)
        add_entry(table, (uint16_t)(FIRST_NODE + i % LOGGERS), sequences[i % LOGGERS] + (uint32_t)(7 * i),
                  (uint16_t)(shape == CHAIN ? i - 1 : 0), counts[i / 4 % (sizeof counts / sizeof counts[0])]);
}

void make_input(Operation operation, Shape shape, size_t size, Input *input)
{
    Depths depths = depths_of(operation, shape);
    size_t middle = size / 2;
    Part *first = &input->first, *second = &input->second;

    second->length = 0;
    input->index = 0;
    switch (operation) {
    case CHECK_PAGE:
        make_page(size, depths, first);
        break;
    case NEW_NAME:
        make_page(size, depths, first);
        input->index = middle;
        break;
    case INSERT_SLOT:
    case REMOVE_SLOT:
        make_page(size, depths, first);
        copy_slot(first, middle, second);
        if (operation == INSERT_SLOT)
            cut_slot(first, middle);
        break;
    case RENAME_PAGE:
    case TAKE_BACK:
        make_page(size, depths, first);
        make_log(size, depths, second);
        if (operation == TAKE_BACK)
            become_result(RENAME_PAGE, SLOT_BYTES, input);
        break;
    case TAKE_BACK_EDITED:
    case TAKE_BACK_MARKED:
    case TAKE_BACK_MARKED_LOG:
        make_log(size, depths, second);
        make_edited(size, depths, first);
        if (operation != TAKE_BACK_EDITED)
            mark_names(1, 2, first);
        if (operation == TAKE_BACK_MARKED_LOG)
            mark_names(0, 1, second);
        break;
    case CHECK_LOG:
    case WRITE_MESSAGE:
    case READ_MESSAGE:
        make_log(size, depths, first);
        if (operation == READ_MESSAGE)
            become_result(WRITE_MESSAGE, 1, input);
        break;
    case FROM_OLD:
    case TO_OLD:
        make_page(size, depths, first);
        if (operation == FROM_OLD)
            become_result(TO_OLD, KADALUMBIR_OLD_SLOT_BYTES, input);
        break;
    case GROUP_PAGE:
    case UNGROUP_FORM:
        make_book(size, shape, depths, first);
        if (operation == UNGROUP_FORM)
            become_result(GROUP_PAGE, 1, input);
        break;
    case GROUP_INSERT:
    case GROUP_REMOVE:
        /* The line stands alone in a fresh book, inside the group of a renamed one, and between two groups that are one
         * without it in the book to which such lines were added. */
        make_book(size, shape, depths, first);
        copy_slot(first, middle - 1, second);
        if (operation == GROUP_INSERT)
            cut_slot(first, middle - 1);
        become_result(GROUP_PAGE, 1, input);
        break;
    case CHECK_EPOCHS:
        make_table(size, shape, first);
        break;
    case NEXT_STEP:
        /* From the second entry the step is up in a star and down in a chain. */
        make_table(size, shape, first);
        input->index = 1;
        break;
    case ADD_EPOCH:
        make_table(size - 1, shape, first);
        break;
    case OPERATIONS:
        break;
    }
}
