/* Chains of calls on one book. */
#include "book_parts.h"
#include "bytes.h"
#include "sorts.h"

/* The renames that the book has had and that are not taken back, each with its log, its author and the epoch before. */
enum { RENAMES = 3 };

static struct {
    Bytes log;
    uint16_t node;
    uint32_t sequence;
    size_t parent;
} renames[RENAMES];

static size_t renamed;

static Bytes page, slot, spoilt, old;

/* The epochs of all renames of the book, taken back or not, and the one that its names belong to. */
static Bytes table;
static size_t epoch;

/* The unit that edits; each of its new names has a sequence of its own. */
static uint16_t unit;
static uint32_t next_sequence;

/* Whether new names are mostly asked for at one place, so that they nest. */
static bool crowded;

static size_t choose_gap(void)
{
    size_t slots = slots_of(&page);
    return crowded && !once_in(4) ? slots / 2 : random_below(slots + 1);
}

/* Mostly enough room, so that the chain goes on. */
static size_t chain_room(size_t bytes)
{
    return once_in(20) ? room_for(bytes) : bytes;
}

/* Goes on with the page that an accepted call wrote. */
static bool go_on(Outcome outcome)
{
    if (outcome.answer != ACCEPTED)
        return false;
    take_output(&page, outcome.count * SLOT_BYTES);
    return true;
}

static void insert_new_line(void)
{
    size_t gap = choose_gap();
    if (hold_new_name(&page, gap, unit, next_sequence++, chain_room(SLOT_BYTES)).answer != ACCEPTED)
        return;
    take_output(&slot, SLOT_BYTES);
    slot.bytes[7] = (uint8_t)next_sequence;
    go_on(hold_insert(&page, &slot, chain_room(page.length + SLOT_BYTES)));
}

static void remove_line(void)
{
    if (slots_of(&page) == 0)
        return;
    copy_slot(&page, random_below(slots_of(&page)), &slot);
    go_on(hold_remove(&page, &slot, chain_room(page.length - SLOT_BYTES)));
}

/* A line of the last rename's parent epoch, which another unit sent before it heard of the rename. */
static void insert_late_line(void)
{
    if (renamed == 0)
        return;
    const Bytes *log = &renames[renamed - 1].log;
    if (hold_new_name(log, random_below(slots_of(log) + 1), unit, next_sequence++, SLOT_BYTES).answer != ACCEPTED)
        return;
    take_output(&slot, SLOT_BYTES);
    if (hold_rename(&slot, log, renames[renamed - 1].node, renames[renamed - 1].sequence, SLOT_BYTES).answer != ACCEPTED)
        return;
    take_output(&slot, SLOT_BYTES);
    go_on(hold_insert(&page, &slot, page.length + SLOT_BYTES));
}

/* The page with something wrong, from which the chain does not go on. */
static void try_spoilt(void)
{
    copy_bytes(&page, &spoilt);
    damage_bytes(&spoilt, SLOT_BYTES);
    switch (random_below(4)) {
    case 0: hold_check_page(&spoilt); break;
    case 1: hold_new_name(&spoilt, choose_gap(), unit, next_sequence, SLOT_BYTES); break;
    case 2: hold_to_old(&spoilt, room_for(slots_of(&spoilt) * OLD_SLOT_BYTES)); break;
    default:
        if (renamed > 0)
            hold_take_back(&spoilt, &renames[renamed - 1].log, renames[renamed - 1].node, renames[renamed - 1].sequence,
                           room_for(spoilt.length));
        break;
    }
}

/* To an old page and back, and goes on with what comes back. */
static void convert_book(void)
{
    if (hold_old_and_back(&page).answer == ACCEPTED)
        take_output(&page, page.length);
}

/* To its form and back, and goes on with what comes back. */
static void group_book(void)
{
    if (hold_group_and_back(&page).answer == ACCEPTED)
        take_output(&page, page.length);
}

/* The book is one that was kept as an old page. */
static void begin_with_old(void)
{
    choose_numbers();
    Names names = names_within(OLD_DEPTH_LIMIT, NAMES);
    make_page(&page, &names);
    make_old_page(&old, &page);
    hold_new_and_back(&old);
    go_on(hold_from_old(&old, chain_room(page.length)));
}

static void edit(size_t times)
{
    for (size_t i = 0; i < times; i++) {
        if (once_in(12))
            try_spoilt();
        if (once_in(12))
            convert_book();
        if (once_in(12))
            group_book();
        if (once_in(5))
            remove_line();
        else if (once_in(4))
            insert_late_line();
        else
            insert_new_line();
    }
}

/* "Entry 0 is all zero." */
static void make_first_epoch(void)
{
    Entry zero = {0, 0, 0, 0};
    write_entry(table.bytes, zero);
    table.length = ENTRY_BYTES;
    epoch = 0;
}

/* 02, P1: "An epoch entry is to carry the number of names in its rename's log" */
static void add_book_epoch(uint16_t node, uint32_t sequence, const Bytes *log)
{
    Path walked;
    Outcome outcome = hold_add_epoch(&table, epoch, node, sequence, (uint16_t)slots_of(log),
                                     chain_room(table.length + ENTRY_BYTES));
    if (outcome.answer != ACCEPTED)
        return;
    take_output(&table, outcome.count * ENTRY_BYTES);
    epoch = outcome.count - 1;
    hold_walk(&table, random_below(outcome.count), &walked);
}

/* Renames the book; now and then the log has names of lines that were removed since. */
static void rename_book(void)
{
    if (renamed == RENAMES || page.length == 0)
        return;
    Bytes *log = &renames[renamed].log;
    log_of(&page, log);
    for (size_t i = random_below(4); i > 0 && once_in(2); i--)
        remove_line();
    uint16_t node = (uint16_t)(1 + random_below(3));
    uint32_t sequence = once_in(10) ? random_below(2) : next_sequence++;
    if (!go_on(hold_rename(&page, log, node, sequence, chain_room(page.length))))
        return;
    renames[renamed].node = node;
    renames[renamed].sequence = sequence;
    renames[renamed].parent = epoch;
    renamed++;
    group_book();
    add_book_epoch(node, sequence, log);
}

static void take_book_back(void)
{
    if (renamed == 0)
        return;
    renamed--;
    epoch = renames[renamed].parent;
    go_on(hold_take_back(&page, &renames[renamed].log, renames[renamed].node, renames[renamed].sequence,
                         chain_room(page.length)));
}

void book_chain(void)
{
    page.length = 0;
    make_first_epoch();
    renamed = 0;
    unit = (uint16_t)(1 + random_below(3));
    next_sequence = 0;
    crowded = once_in(2);
    if (once_in(4))
        begin_with_old();
    edit(once_in(60) ? 400 : random_below(24));
    for (size_t i = 1 + random_below(4); i > 0; i--) {
        if (once_in(3))
            take_book_back();
        else
            rename_book();
        edit(random_below(12));
    }
    while (renamed > 0) {
        take_book_back();
        edit(random_below(4));
    }
    hold_check_page(&page);
}
