#include "renames.h"

static const Name *r(const Renaming *renaming, size_t k)
{
    return &renaming->log.slots[k].name;
}

static bool below(const Name *a, const Name *b)
{
    return compare_names(a, b) < 0;
}

static bool above(const Name *a, const Name *b)
{
    return compare_names(a, b) > 0;
}

static bool equal(const Name *a, const Name *b)
{
    return compare_names(a, b) == 0;
}

/* "p = position of r0's first tuple" */
Name new_row(const Renaming *renaming, int32_t k)
{
    Tuple t = {r(renaming, 0)->tuples[0].position, renaming->node, renaming->sequence, k};
    return row_of(t);
}

static Renamed by(const char *words, Name name)
{
    Renamed renamed = {name, words};
    return renamed;
}

/* The six rows of the table, in its order. */
Renamed rename_name(const Renaming *renaming, const Name *x)
{
    size_t n = renaming->log.count;
    Name first = new_row(renaming, 0), last = new_row(renaming, (int32_t)n - 1), before_first = new_row(renaming, -1);

    if (below(x, r(renaming, 0)) && below(x, &first))
        return by("below r0 and below N(0)", *x);
    if (below(x, r(renaming, 0)))
        return by("below r0, otherwise", joined(&before_first, x));
    for (size_t k = 0; k < n; k++)
        if (equal(x, r(renaming, k)))
            return by("equal to r(k)", new_row(renaming, (int32_t)k));
    for (size_t k = 0; k + 1 < n; k++)
        if (above(x, r(renaming, k)) && below(x, r(renaming, k + 1))) {
            Name here = new_row(renaming, (int32_t)k);
            return by("between r(k) and r(k+1)", joined(&here, x));
        }
    if (above(x, r(renaming, n - 1)) && below(x, &last))
        return by("above r(n-1) and below N(n-1)", joined(&last, x));
    return by("above r(n-1), otherwise", *x);
}

/* "One below" a name is that name with its last offset less 1; then M, then v. */
static Name under(const Name *name, const Name *v)
{
    Name lower = *name, marker = row_of(high_marker);
    lower.tuples[lower.depth - 1].offset--;
    lower = joined(&lower, &marker);
    return joined(&lower, v);
}

/* name·m·v */
static Name over(const Name *name, const Name *v)
{
    Name marker = row_of(low_marker);
    Name higher = joined(name, &marker);
    return joined(&higher, v);
}

/* "c below N(0): v is t where c = (p, A, s, -1)·t with t not empty and t not below N(0); otherwise v is c. If v is below
 * r0 the result is v, else one below r0, then M, then v." */
static Renamed back_from_below(const Renaming *renaming, const Name *c)
{
    Name first = new_row(renaming, 0), before_first = new_row(renaming, -1);
    Name t = tuples_after(c, &before_first);
    if (begins_with(c, &before_first) && t.depth > 0 && !below(&t, &first)) {
        if (below(&t, r(renaming, 0)))
            return by("c below N(0): v is t, below r0", t);
        return by("c below N(0): v is t, not below r0", under(r(renaming, 0), &t));
    }
    if (below(c, r(renaming, 0)))
        return by("c below N(0): v is c, below r0", *c);
    return by("c below N(0): v is c, not below r0", under(r(renaming, 0), c));
}

/* "c between N(k) and N(k+1), so c = N(k)·t: if t is not above r(k), r(k)·m·t. If t is not below r(k+1), one below
 * r(k+1), then M, then t. Otherwise t." */
static Renamed back_from_between(const Renaming *renaming, size_t k, const Name *c)
{
    Name here = new_row(renaming, (int32_t)k);
    Name t = tuples_after(c, &here);
    if (!above(&t, r(renaming, k)))
        return by("c between: t not above r(k)", over(r(renaming, k), &t));
    if (!below(&t, r(renaming, k + 1)))
        return by("c between: t not below r(k+1)", under(r(renaming, k + 1), &t));
    return by("c between: otherwise t", t);
}

/* "c above N(n-1): v is t where c = N(n-1)·t and t is below N(n-1); otherwise v is c. If v is above r(n-1) the result is
 * v, else r(n-1)·m·v." */
static Renamed back_from_above(const Renaming *renaming, const Name *c)
{
    size_t n = renaming->log.count;
    const Name *end = r(renaming, n - 1);
    Name last = new_row(renaming, (int32_t)n - 1);
    Name t = tuples_after(c, &last);
    if (begins_with(c, &last) && below(&t, &last)) {
        if (above(&t, end))
            return by("c above N(n-1): v is t, above r(n-1)", t);
        return by("c above N(n-1): v is t, not above r(n-1)", over(end, &t));
    }
    if (above(c, end))
        return by("c above N(n-1): v is c, above r(n-1)", *c);
    return by("c above N(n-1): v is c, not above r(n-1)", over(end, c));
}

/* The four bullets, in their order. */
Renamed take_name_back(const Renaming *renaming, const Name *c)
{
    size_t n = renaming->log.count;
    Name first = new_row(renaming, 0);

    /* "c = N(k), 0 <= k < n: r(k)." */
    for (size_t k = 0; k < n; k++) {
        Name here = new_row(renaming, (int32_t)k);
        if (equal(c, &here))
            return by("c = N(k)", *r(renaming, k));
    }
    if (below(c, &first))
        return back_from_below(renaming, c);
    for (size_t k = 0; k + 1 < n; k++) {
        Name here = new_row(renaming, (int32_t)k), next = new_row(renaming, (int32_t)k + 1);
        if (above(c, &here) && below(c, &next))
            return back_from_between(renaming, k, c);
    }
    return back_from_above(renaming, c);
}

bool is_fresh(const Page *page, const Renaming *renaming)
{
    const Page *both[] = {page, &renaming->log};
    for (size_t i = 0; i < 2; i++)
        for (size_t j = 0; j < both[i]->count; j++) {
            Tuple t = both[i]->slots[j].name.tuples[0];
            if (t.node == renaming->node && t.sequence == renaming->sequence)
                return false;
        }
    return true;
}

/* The first refusals of both: "1, 2, 3, 4"; where there is none, page and log are read. */
static int read_renaming(const uint8_t *page, size_t page_length, const uint8_t *log, size_t log_length, uint16_t node,
                         uint32_t sequence, Page *slots, Renaming *renaming)
{
    int answer = check_page(page, page_length);
    if (answer == ACCEPTED)
        answer = check_log(log, log_length);
    if (answer == ACCEPTED && node == 0)
        answer = NO_AUTHOR;
    if (answer != ACCEPTED)
        return answer;
    read_page(page, page_length, slots);
    read_page(log, log_length, &renaming->log);
    renaming->node = node;
    renaming->sequence = sequence;
    return ACCEPTED;
}

/* "Line numbers travel with their names. Renaming and taking back read one page and write another, the same number of
 * slots in the same order"; "rename 1, 2, 3, 4, 5, 6, 8" */
Outcome rename_page(const uint8_t *page, size_t page_length, const uint8_t *log, size_t log_length, uint16_t node,
                    uint32_t sequence, uint8_t *out, size_t room)
{
    Page slots;
    Renaming renaming;
    int answer = read_renaming(page, page_length, log, log_length, node, sequence, &slots, &renaming);
    if (answer != ACCEPTED)
        return refused(answer);
    if (!is_fresh(&slots, &renaming))
        return refused(NOT_FRESH);
    for (size_t i = 0; i < slots.count; i++)
        slots.slots[i].name = rename_name(&renaming, &slots.slots[i].name).name;
    if (!names_fit(&slots, DEPTH_LIMIT))
        return refused(TOO_DEEP);
    return write_page(&slots, out, room);
}

/* "taking back 1, 2, 3, 4, 6, 7, 8"; "Taking back asks for no freshness." */
Outcome take_page_back(const uint8_t *page, size_t page_length, const uint8_t *log, size_t log_length, uint16_t node,
                       uint32_t sequence, uint8_t *out, size_t room)
{
    Page slots;
    Renaming renaming;
    int answer = read_renaming(page, page_length, log, log_length, node, sequence, &slots, &renaming);
    if (answer != ACCEPTED)
        return refused(answer);
    for (size_t i = 0; i < slots.count; i++)
        slots.slots[i].name = take_name_back(&renaming, &slots.slots[i].name).name;
    if (!names_fit(&slots, DEPTH_LIMIT))
        return refused(TOO_DEEP);
    if (!names_rise(&slots))
        return refused(BACK_NOT_RISING);
    return write_page(&slots, out, room);
}
