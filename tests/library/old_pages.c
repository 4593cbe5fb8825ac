/* Cases of one conversion of a page: to an old one, or from it. */
#include "bytes.h"
#include "sorts.h"

static Bytes page, old;

/* A page of names of at most so many tuples; now and then a long one, or something wrong. */
static void make_near(size_t limit)
{
    choose_numbers();
    Names names = names_within(limit, NAMES);
    if (once_in(5))
        damage(&names);
    make_page(&page, &names);
    if (once_in(20))
        make_long_page(&page, long_count(), limit, false);
    if (once_in(12))
        spoil_slot(&page);
}

void from_old_case(void)
{
    make_near(once_in(8) ? OLD_DEPTH_LIMIT + 1 : OLD_DEPTH_LIMIT);
    make_old_page(&old, &page);
    maybe_damage_bytes(12, &old, OLD_SLOT_BYTES);
    hold_from_old(once_in(40) ? &page : &old, room_for(page.length));
}

void to_old_case(void)
{
    static const size_t limits[] = {OLD_DEPTH_LIMIT, OLD_DEPTH_LIMIT, OLD_DEPTH_LIMIT + 1, DEPTH_LIMIT};
    make_near(limits[random_below(LENGTH(limits))]);
    make_old_page(&old, &page);
    maybe_damage_bytes(12, &page, SLOT_BYTES);
    hold_to_old(once_in(40) ? &old : &page, room_for(old.length));
}
