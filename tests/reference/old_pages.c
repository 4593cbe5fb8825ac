#include "old_pages.h"

/* 02, P8: "The names and line numbers are equal both ways."; "Refusals of a conversion: 1, 2, then 6 for a depth that doesn't
 * fit the old page, then 8." From one limit to another. */
static Outcome convert(size_t limit, const uint8_t *bytes, size_t length, size_t other, uint8_t *out, size_t room)
{
    int answer = check_page_of(limit, bytes, length);
    if (answer != ACCEPTED)
        return refused(answer);
    Page page;
    read_page_of(limit, bytes, length, &page);
    if (!names_fit(&page, other))
        return refused(TOO_DEEP);
    return write_page_of(other, &page, out, room);
}

/* "An old page converts to a new one": there is no old depth that doesn't fit. */
Outcome from_old(const uint8_t *old, size_t length, uint8_t *out, size_t room)
{
    return convert(OLD_DEPTH_LIMIT, old, length, DEPTH_LIMIT, out, room);
}

/* "and a new page back exactly when every depth is at most eight" */
Outcome to_old(const uint8_t *page, size_t length, uint8_t *out, size_t room)
{
    return convert(DEPTH_LIMIT, page, length, OLD_DEPTH_LIMIT, out, room);
}
