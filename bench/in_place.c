/*
 * C in place: every call of the header once more, as C that is meant to be fast, for bench/run to time the library
 * against. It works on the bytes as they are given: a tuple is compared as two numbers, filler is looked at in words,
 * and nothing is unpacked, allocated or kept. It is written from documents 01 and 02 and the header, and
 * tests/library/run holds it to the plain C of tests/reference, on the same cases as the library.
 *
 * A call that writes goes over what it is given first to decide, since a refusal writes nothing, and then to write.
 * What stands in quotation marks is 01's; where that says eight, it is sixteen now.
 */
#include "../include/kadalumbir.h"

#include <stdbool.h>
#include <string.h>

enum {
    HEAD = 8, /* of a slot: depth, three zero bytes, line number */
    TUPLE = KADALUMBIR_TUPLE_BYTES,
    TUPLES = KADALUMBIR_TUPLES,
    OLD_TUPLES = KADALUMBIR_OLD_TUPLES,
    SLOT = KADALUMBIR_SLOT_BYTES,
    OLD_SLOT = KADALUMBIR_OLD_SLOT_BYTES,
    SLOTS = KADALUMBIR_SLOTS,
    ENTRY = KADALUMBIR_ENTRY_BYTES,
    NAME = TUPLES * TUPLE /* the room of a name in a slot */
};

static uint64_t accepted(size_t count)
{
    return ((uint64_t)KADALUMBIR_ACCEPTED << 32) + count;
}

static uint64_t refused(kadalumbir_answer answer)
{
    return (uint64_t)answer << 32;
}

/* ---- numbers, "big-endian", at any address */

static inline uint32_t swapped32(uint32_t word)
{
    return __BYTE_ORDER__ == __ORDER_LITTLE_ENDIAN__ ? __builtin_bswap32(word) : word;
}

static inline uint64_t swapped64(uint64_t word)
{
    return __BYTE_ORDER__ == __ORDER_LITTLE_ENDIAN__ ? __builtin_bswap64(word) : word;
}

/* Bytes as they stand, enough to ask whether they are equal or zero. */
static inline uint32_t word32(const uint8_t *at)
{
    uint32_t word;
    memcpy(&word, at, sizeof word);
    return word;
}

static inline uint64_t word64(const uint8_t *at)
{
    uint64_t word;
    memcpy(&word, at, sizeof word);
    return word;
}

static inline uint16_t load16(const uint8_t *at)
{
    return (uint16_t)(at[0] << 8 | at[1]);
}

static inline uint32_t load32(const uint8_t *at)
{
    return swapped32(word32(at));
}

static inline uint64_t load64(const uint8_t *at)
{
    return swapped64(word64(at));
}

static inline void store16(uint8_t *at, uint16_t number)
{
    at[0] = (uint8_t)(number >> 8);
    at[1] = (uint8_t)number;
}

static inline void store32(uint8_t *at, uint32_t number)
{
    number = swapped32(number);
    memcpy(at, &number, sizeof number);
}

static inline void store64(uint8_t *at, uint64_t number)
{
    number = swapped64(number);
    memcpy(at, &number, sizeof number);
}

/* Writes at a place of the output what stands from one place to another; of nothing, either pointer may be null. */
static inline void copy(uint8_t *out, size_t at, const uint8_t *from, size_t begin, size_t end)
{
    if (begin < end)
        memcpy(out + at, from + begin, end - begin);
}

/* Whether so many bytes, a whole number of tuples and so of half words, are all zero. */
static inline bool all_zero(const uint8_t *at, size_t length)
{
    uint64_t seen = 0;
    if (length % 8 != 0) {
        seen = word32(at);
        at += 4;
    }
    size_t words = length / 8;
    for (; words >= 4; words -= 4, at += 32)
        seen |= word64(at) | word64(at + 8) | word64(at + 16) | word64(at + 24);
    for (; words > 0; words--, at += 8)
        seen |= word64(at);
    return seen == 0;
}

/* ---- tuples, which "compare by position, node, sequence, offset, in that order, offset signed" */

/* Position, node and sequence, as one number. */
static inline uint64_t key_of(const uint8_t *tuple)
{
    return load64(tuple);
}

static inline uint32_t offset_of(const uint8_t *tuple)
{
    return load32(tuple + 8);
}

static inline uint16_t position_of(const uint8_t *tuple)
{
    return load16(tuple);
}

/* An offset as a number without sign, in the same order. */
static inline uint32_t rank_of(uint32_t offset)
{
    return offset ^ 0x80000000u;
}

/* An author, as what a key has after the position. */
static inline uint64_t pair_of(uint16_t node, uint32_t sequence)
{
    return (uint64_t)node << 32 | sequence;
}

static inline uint64_t key_from(uint16_t position, uint64_t pair)
{
    return (uint64_t)position << 48 | pair;
}

static inline void put_tuple(uint8_t *tuple, uint64_t key, uint32_t offset)
{
    store64(tuple, key);
    store32(tuple + 8, offset);
}

static inline bool tuple_below(const uint8_t *tuple, uint64_t key, uint32_t offset)
{
    uint64_t here = key_of(tuple);
    return here < key || (here == key && rank_of(offset_of(tuple)) < rank_of(offset));
}

/* "position 1..65534, node 1..65535, any sequence, offset -1..2147483646" */
static inline bool is_ordinary(const uint8_t *tuple)
{
    uint32_t place = load32(tuple);
    return place - 0x10000u < 0xfffe0000u && (place & 0xffffu) != 0 && offset_of(tuple) + 1 < 0x80000000u;
}

/* "m = (0, 0, 0, 0) and M = (65535, 65535, 4294967295, 2147483647)" */
static inline bool is_marker(const uint8_t *tuple)
{
    uint64_t key = key_of(tuple);
    return (key == 0 && offset_of(tuple) == 0) || (key == UINT64_MAX && offset_of(tuple) == INT32_MAX);
}

/* ---- rows of tuples, given as where they stand and how many they are; names are such rows */

/* "The first and last tuples are ordinary, the last has offset at least 0, and markers may stand only between." */
static inline bool is_name(const uint8_t *row, size_t depth)
{
    const uint8_t *last = row + (depth - 1) * TUPLE;
    if (!is_ordinary(row) || !is_ordinary(last) || offset_of(last) > INT32_MAX)
        return false;
    for (const uint8_t *tuple = row + TUPLE; tuple < last; tuple += TUPLE)
        if (!is_ordinary(tuple) && !is_marker(tuple))
            return false;
    return true;
}

/* "Names compare at the first tuple that differs; a proper prefix is smaller": below 0, 0 or above 0. */
static inline int compare_rows(const uint8_t *a, size_t a_depth, const uint8_t *b, size_t b_depth)
{
    size_t both = a_depth < b_depth ? a_depth : b_depth;
    for (; both > 0; both--, a += TUPLE, b += TUPLE) {
        if (word64(a) != word64(b))
            return key_of(a) < key_of(b) ? -1 : 1;
        if (word32(a + 8) != word32(b + 8))
            return rank_of(offset_of(a)) < rank_of(offset_of(b)) ? -1 : 1;
    }
    return (a_depth > b_depth) - (a_depth < b_depth);
}

/* ---- slots */

static inline size_t depth_of(const uint8_t *slot)
{
    return slot[0];
}

static inline const uint8_t *name_of(const uint8_t *slot)
{
    return slot + HEAD;
}

static inline uint32_t line_of(const uint8_t *slot)
{
    return load32(slot + 4);
}

static inline void put_head(uint8_t *slot, size_t depth, uint32_t line)
{
    store64(slot, (uint64_t)depth << 56 | line);
}

/* "the rest all zero" */
static inline void put_rest(uint8_t *slot, size_t depth)
{
    memset(slot + HEAD + depth * TUPLE, 0, NAME - depth * TUPLE);
}

static inline int compare_slots(const uint8_t *a, const uint8_t *b)
{
    return compare_rows(name_of(a), depth_of(a), name_of(b), depth_of(b));
}

/* "depth 1..8, three zero bytes, line number (u32, any value, repeats allowed), then eight tuples of 12 bytes, the
 * first depth of them a name, the rest all zero": of a slot for so many tuples. */
static inline bool is_slot(size_t limit, const uint8_t *slot)
{
    size_t depth = depth_of(slot);
    if (depth < 1 || depth > limit || load32(slot) << 8 != 0)
        return false;
    return is_name(name_of(slot), depth) && all_zero(name_of(slot) + depth * TUPLE, (limit - depth) * TUPLE);
}

/* ---- pages and logs: the two checks of slots for so many tuples, then those of a page, an old page and a log */

static inline size_t slot_bytes(size_t limit)
{
    return HEAD + limit * TUPLE;
}

/* "A length that is no whole number of slots or entries breaks the layout." */
static inline bool keeps_layout_of(size_t limit, const uint8_t *page, size_t page_len)
{
    if (page_len % slot_bytes(limit) != 0 || page_len > SLOTS * slot_bytes(limit))
        return false;
    for (size_t at = 0; at < page_len; at += slot_bytes(limit))
        if (!is_slot(limit, page + at))
            return false;
    return true;
}

/* "strictly rising names" */
static inline bool rises_of(size_t limit, const uint8_t *page, size_t page_len)
{
    for (size_t at = slot_bytes(limit); at < page_len; at += slot_bytes(limit))
        if (compare_slots(page + at - slot_bytes(limit), page + at) >= 0)
            return false;
    return true;
}

/* A function that stays one, apart from its callers, in each of which gcc makes other and slower loops of it. */
#define APART __attribute__((noinline))

static APART bool keeps_layout(const uint8_t *page, size_t page_len)
{
    return keeps_layout_of(TUPLES, page, page_len);
}

static APART bool rises(const uint8_t *page, size_t page_len)
{
    return rises_of(TUPLES, page, page_len);
}

static kadalumbir_answer check_page(const uint8_t *page, size_t page_len)
{
    if (!keeps_layout(page, page_len))
        return KADALUMBIR_BAD_LAYOUT;
    return rises(page, page_len) ? KADALUMBIR_ACCEPTED : KADALUMBIR_NOT_RISING;
}

static kadalumbir_answer check_old(const uint8_t *old, size_t old_len)
{
    if (!keeps_layout_of(OLD_TUPLES, old, old_len))
        return KADALUMBIR_BAD_LAYOUT;
    return rises_of(OLD_TUPLES, old, old_len) ? KADALUMBIR_ACCEPTED : KADALUMBIR_NOT_RISING;
}

static bool lines_are_zero(const uint8_t *log, size_t log_len)
{
    for (size_t at = 0; at < log_len; at += SLOT)
        if (line_of(log + at) != 0)
            return false;
    return true;
}

/* "A log is a page of 1..256 slots whose line numbers are 0." */
static bool is_log(const uint8_t *log, size_t log_len)
{
    return log_len >= SLOT && check_page(log, log_len) == KADALUMBIR_ACCEPTED && lines_are_zero(log, log_len);
}

/* Where a name stands in a page, or would: how many names are below it, and whether it is the next. */
typedef struct {
    size_t below;
    bool present;
} Place;

static Place find(const uint8_t *page, size_t count, const uint8_t *slot)
{
    Place place = {0, false};
    while (place.below < count && !place.present) {
        size_t middle = place.below + (count - place.below) / 2;
        int order = compare_slots(page + middle * SLOT, slot);
        if (order > 0)
            count = middle;
        else
            place.below = middle + (order < 0);
        place.present = order == 0;
    }
    return place;
}

uint64_t kadalumbir_check_page(const uint8_t *page, size_t page_len)
{
    kadalumbir_answer answer = check_page(page, page_len);
    return answer == KADALUMBIR_ACCEPTED ? accepted(page_len / SLOT) : refused(answer);
}

uint64_t kadalumbir_check_log(const uint8_t *log, size_t log_len)
{
    return is_log(log, log_len) ? accepted(log_len / SLOT) : refused(KADALUMBIR_BAD_LOG);
}

/* ---- lines */

/* "1 (page), 1 (slot), 2" */
static kadalumbir_answer check_edit(const uint8_t *page, size_t page_len, const uint8_t *slot, size_t slot_len)
{
    if (!keeps_layout(page, page_len) || slot_len != SLOT || !is_slot(TUPLES, slot))
        return KADALUMBIR_BAD_LAYOUT;
    return rises(page, page_len) ? KADALUMBIR_ACCEPTED : KADALUMBIR_NOT_RISING;
}

/* "Insert writes the page with the given slot at its rising place" */
uint64_t kadalumbir_insert(const uint8_t *page, size_t page_len, const uint8_t *slot, size_t slot_len, uint8_t *out,
                           size_t out_len)
{
    size_t count = page_len / SLOT;
    kadalumbir_answer answer = check_edit(page, page_len, slot, slot_len);
    if (answer != KADALUMBIR_ACCEPTED)
        return refused(answer);
    Place place = find(page, count, slot);
    if (place.present)
        return refused(KADALUMBIR_PRESENT);
    if (count == SLOTS)
        return refused(KADALUMBIR_FULL);
    if (out_len < page_len + SLOT)
        return refused(KADALUMBIR_SHORT);
    size_t at = place.below * SLOT;
    copy(out, 0, page, 0, at);
    copy(out, at, slot, 0, SLOT);
    copy(out, at + SLOT, page, at, page_len);
    return accepted(count + 1);
}

/* "remove writes it without the slot of that name" */
uint64_t kadalumbir_remove(const uint8_t *page, size_t page_len, const uint8_t *slot, size_t slot_len, uint8_t *out,
                           size_t out_len)
{
    size_t count = page_len / SLOT;
    kadalumbir_answer answer = check_edit(page, page_len, slot, slot_len);
    if (answer != KADALUMBIR_ACCEPTED)
        return refused(answer);
    Place place = find(page, count, slot);
    if (!place.present)
        return refused(KADALUMBIR_ABSENT);
    if (out_len < page_len - SLOT)
        return refused(KADALUMBIR_SHORT);
    size_t at = place.below * SLOT;
    copy(out, 0, page, 0, at);
    copy(out, at, page, at + SLOT, page_len);
    return accepted(count - 1);
}

/* ---- new names */

/* A name that is to be made: the tuples of a, one that is lowered or none, and one of the author's. */
typedef struct {
    const uint8_t *a; /* a slot, or NULL */
    const uint8_t *lowered; /* a tuple, or NULL */
    uint16_t position;
} NewName;

static size_t new_depth(const NewName *made)
{
    return (made->a != NULL ? depth_of(made->a) : 0) + (made->lowered != NULL) + 1;
}

/* Whether a, which may be missing, is a proper prefix of b, which is above it. */
static bool is_prefix(const uint8_t *a, const uint8_t *b)
{
    if (a == NULL)
        return true;
    return depth_of(a) < depth_of(b) && compare_rows(name_of(a), depth_of(a), name_of(b), depth_of(a)) == 0;
}

/* The three rules, for the gap between two slots, either of which may be missing; false is "answer 12". */
static bool name_gap(const uint8_t *a, const uint8_t *b, NewName *made)
{
    enum { MIDDLE = 32768 };
    uint32_t low = a != NULL ? position_of(name_of(a)) : 0, high = b != NULL ? position_of(name_of(b)) : UINT16_MAX;
    made->lowered = NULL;
    made->position = MIDDLE;
    if (high - low >= 2) {
        made->a = NULL;
        made->position = (uint16_t)((low + high) / 2);
        return true;
    }
    made->a = a;
    if (b == NULL || !is_prefix(a, b))
        return true;
    const uint8_t *y = name_of(b) + (a != NULL ? depth_of(a) * TUPLE : 0);
    if (position_of(y) >= 2) {
        made->position = position_of(y) / 2;
        return true;
    }
    made->lowered = y;
    return position_of(y) == 1 && offset_of(y) <= INT32_MAX;
}

static void write_new_name(const NewName *made, uint64_t pair, uint8_t *out)
{
    size_t depth = new_depth(made);
    uint8_t *last = out + HEAD + (depth - 1) * TUPLE;
    put_head(out, depth, 0);
    if (made->a != NULL)
        memcpy(out + HEAD, name_of(made->a), depth_of(made->a) * TUPLE);
    if (made->lowered != NULL)
        put_tuple(last - TUPLE, key_of(made->lowered), offset_of(made->lowered) - 1);
    put_tuple(last, key_from(made->position, pair), 0);
    put_rest(out, depth);
}

uint64_t kadalumbir_new_name(const uint8_t *page, size_t page_len, size_t gap, uint16_t node, uint32_t sequence,
                             uint8_t *out, size_t out_len)
{
    size_t count = page_len / SLOT;
    kadalumbir_answer answer = check_page(page, page_len);
    if (answer != KADALUMBIR_ACCEPTED)
        return refused(answer);
    if (node == 0)
        return refused(KADALUMBIR_NO_AUTHOR);
    if (gap > count)
        return refused(KADALUMBIR_NO_GAP);
    NewName made;
    if (!name_gap(gap > 0 ? page + (gap - 1) * SLOT : NULL, gap < count ? page + gap * SLOT : NULL, &made))
        return refused(KADALUMBIR_NO_NEW_NAME);
    if (new_depth(&made) > TUPLES)
        return refused(KADALUMBIR_TOO_DEEP);
    if (out_len < SLOT)
        return refused(KADALUMBIR_SHORT);
    write_new_name(&made, pair_of(node, sequence), out);
    return accepted(0);
}

/* ---- renames */

/* "Log r0 < .. < r(n-1), author (A, s), p = position of r0's first tuple, N(k) = the name (p, A, s, k)" */
typedef struct {
    const uint8_t *log;
    size_t n;
    uint64_t pair; /* A, s */
    uint64_t key;  /* p, A, s */
} Renaming;

static inline const uint8_t *r(const Renaming *renaming, size_t k)
{
    return renaming->log + k * SLOT;
}

/* "1, 2, 3, 4" */
static kadalumbir_answer check_renaming(const uint8_t *page, size_t page_len, const uint8_t *log, size_t log_len,
                                        uint16_t node)
{
    kadalumbir_answer answer = check_page(page, page_len);
    if (answer != KADALUMBIR_ACCEPTED)
        return answer;
    if (!is_log(log, log_len))
        return KADALUMBIR_BAD_LOG;
    return node == 0 ? KADALUMBIR_NO_AUTHOR : KADALUMBIR_ACCEPTED;
}

static Renaming renaming_of(const uint8_t *log, size_t log_len, uint16_t node, uint32_t sequence)
{
    uint64_t pair = pair_of(node, sequence);
    Renaming renaming = {log, log_len / SLOT, pair, key_from(position_of(name_of(log)), pair)};
    return renaming;
}

/* "no name in page or log has (A, s) as node and sequence of its first tuple" */
static bool is_fresh(const uint8_t *page, size_t page_len, uint64_t pair)
{
    for (size_t at = 0; at < page_len; at += SLOT)
        if (key_of(name_of(page + at)) << 16 == pair << 16)
            return false;
    return true;
}

/* Whether a name that is not logged gets a tuple before it, where it is fresh and so many logged ones are below it.
 * That tuple is (p, A, s, -1) below r0 and N(k) above r(k): its offset is one less than their number. */
static inline bool gains_tuple(const Renaming *renaming, const uint8_t *slot, size_t below)
{
    uint64_t key = key_of(name_of(slot));
    if (below == 0)
        return key > renaming->key;
    return below < renaming->n || key < renaming->key;
}

/* "6: some result needs more than eight tuples": only of a name that has as many can it be so. */
static bool renamed_fit(const Renaming *renaming, const uint8_t *page, size_t page_len)
{
    for (size_t at = 0; at < page_len; at += SLOT)
        if (depth_of(page + at) == TUPLES) {
            Place place = find(renaming->log, renaming->n, page + at);
            if (!place.present && gains_tuple(renaming, page + at, place.below))
                return false;
        }
    return true;
}

/* N(k), with the slot's line number. */
static inline void write_short(const Renaming *renaming, const uint8_t *slot, size_t k, uint8_t *out)
{
    put_head(out, 1, line_of(slot));
    put_tuple(out + HEAD, renaming->key, (uint32_t)k);
    put_rest(out, 1);
}

/* The slot with one tuple more before its name: what is left of the slot's room behind its name is zeros already. */
static inline void write_longer(const Renaming *renaming, const uint8_t *slot, uint32_t offset, uint8_t *out)
{
    put_head(out, depth_of(slot) + 1, line_of(slot));
    put_tuple(out + HEAD, renaming->key, offset);
    memcpy(out + HEAD + TUPLE, name_of(slot), NAME - TUPLE);
}

/* Page and log both rise: what is below one name is below the next. */
static void write_renamed(const Renaming *renaming, const uint8_t *page, size_t page_len, uint8_t *out)
{
    size_t below = 0;
    for (size_t at = 0; at < page_len; at += SLOT) {
        const uint8_t *slot = page + at;
        int order = 1;
        while (below < renaming->n && (order = compare_slots(r(renaming, below), slot)) < 0)
            below++;
        if (order == 0)
            write_short(renaming, slot, below, out + at);
        else if (gains_tuple(renaming, slot, below))
            write_longer(renaming, slot, (uint32_t)below - 1, out + at);
        else
            memcpy(out + at, slot, SLOT);
    }
}

uint64_t kadalumbir_rename(const uint8_t *page, size_t page_len, const uint8_t *log, size_t log_len, uint16_t node,
                           uint32_t sequence, uint8_t *out, size_t out_len)
{
    kadalumbir_answer answer = check_renaming(page, page_len, log, log_len, node);
    if (answer != KADALUMBIR_ACCEPTED)
        return refused(answer);
    Renaming renaming = renaming_of(log, log_len, node, sequence);
    if (!is_fresh(page, page_len, renaming.pair) || !is_fresh(log, log_len, renaming.pair))
        return refused(KADALUMBIR_NOT_FRESH);
    if (!renamed_fit(&renaming, page, page_len))
        return refused(KADALUMBIR_TOO_DEEP);
    if (out_len < page_len)
        return refused(KADALUMBIR_SHORT);
    write_renamed(&renaming, page, page_len, out);
    return accepted(page_len / SLOT);
}

/* ---- taking back */

/* What a name is taken back to: a row that stands in page or log, alone or behind a logged name and a marker. */
typedef struct {
    const uint8_t *row;
    size_t depth;
    const uint8_t *logged; /* the logged name's slot; NULL where the row is alone */
    bool lowered;          /* one below that name, then M; otherwise that name, then m */
} Back;

static inline Back alone(const uint8_t *row, size_t depth)
{
    Back back = {row, depth, NULL, false};
    return back;
}

/* r(k)·m·v */
static inline Back over(const uint8_t *logged, const uint8_t *v, size_t depth)
{
    Back back = {v, depth, logged, false};
    return back;
}

/* "one below r(k), then M, then v" */
static inline Back under(const uint8_t *logged, const uint8_t *v, size_t depth)
{
    Back back = {v, depth, logged, true};
    return back;
}

static inline int compare_to_logged(const uint8_t *row, size_t depth, const uint8_t *logged)
{
    return compare_rows(row, depth, name_of(logged), depth_of(logged));
}

/* "If v is below r0 the result is v, else one below r0, then M, then v." */
static inline Back back_below(const Renaming *renaming, const uint8_t *v, size_t depth)
{
    const uint8_t *first = r(renaming, 0);
    return compare_to_logged(v, depth, first) < 0 ? alone(v, depth) : under(first, v, depth);
}

/* "if t is not above r(k), r(k)·m·t. If t is not below r(k+1), one below r(k+1), then M, then t. Otherwise t." */
static inline Back back_between(const Renaming *renaming, size_t k, const uint8_t *t, size_t depth)
{
    const uint8_t *here = r(renaming, k), *next = r(renaming, k + 1);
    if (compare_to_logged(t, depth, here) <= 0)
        return over(here, t, depth);
    return compare_to_logged(t, depth, next) < 0 ? alone(t, depth) : under(next, t, depth);
}

/* "If v is above r(n-1) the result is v, else r(n-1)·m·v." */
static inline Back back_above(const Renaming *renaming, const uint8_t *v, size_t depth)
{
    const uint8_t *last = r(renaming, renaming->n - 1);
    return compare_to_logged(v, depth, last) > 0 ? alone(v, depth) : over(last, v, depth);
}

/* Of a name (p, A, s, k)·t: a negative k is -1, behind which there is always a t. */
static inline Back back_of_author(const Renaming *renaming, const uint8_t *c, size_t depth)
{
    uint32_t k = offset_of(c), last = (uint32_t)renaming->n - 1;
    const uint8_t *t = c + TUPLE;
    if (k > INT32_MAX)
        return tuple_below(t, renaming->key, 0) ? back_below(renaming, c, depth) : back_below(renaming, t, depth - 1);
    if (k <= last && depth == 1)
        return alone(name_of(r(renaming, k)), depth_of(r(renaming, k)));
    if (k < last)
        return back_between(renaming, k, t, depth - 1);
    if (k == last && tuple_below(t, renaming->key, last))
        return back_above(renaming, t, depth - 1);
    return back_above(renaming, c, depth);
}

static inline Back take_back(const Renaming *renaming, const uint8_t *slot)
{
    const uint8_t *c = name_of(slot);
    size_t depth = depth_of(slot);
    uint64_t key = key_of(c);
    if (key == renaming->key)
        return back_of_author(renaming, c, depth);
    return key < renaming->key ? back_below(renaming, c, depth) : back_above(renaming, c, depth);
}

static inline size_t back_depth(const Back *back)
{
    return back->depth + (back->logged != NULL ? depth_of(back->logged) + 1 : 0);
}

/* Writes the tuples of a row that is not alone. */
static void write_joined(const Back *back, uint8_t *out)
{
    size_t length = depth_of(back->logged) * TUPLE;
    uint8_t *marker = out + length;
    memcpy(out, name_of(back->logged), length);
    if (back->lowered) {
        store32(marker - 4, load32(marker - 4) - 1);
        put_tuple(marker, UINT64_MAX, INT32_MAX);
    } else {
        put_tuple(marker, 0, 0);
    }
    memcpy(marker + TUPLE, back->row, back->depth * TUPLE);
}

/* 6 of every name before 7 of any two: rows that are not alone are made in two rooms by turns, to be compared. */
static kadalumbir_answer check_back(const Renaming *renaming, const uint8_t *page, size_t count)
{
    uint8_t rooms[2][NAME];
    const uint8_t *before = NULL;
    size_t before_depth = 0;
    bool rise = true;
    for (size_t i = 0; i < count; i++) {
        Back back = take_back(renaming, page + i * SLOT);
        const uint8_t *row = back.row;
        size_t depth = back_depth(&back);
        if (depth > TUPLES)
            return KADALUMBIR_TOO_DEEP;
        if (back.logged != NULL) {
            write_joined(&back, rooms[i % 2]);
            row = rooms[i % 2];
        }
        rise = rise && compare_rows(before, before_depth, row, depth) < 0;
        before = row;
        before_depth = depth;
    }
    return rise ? KADALUMBIR_ACCEPTED : KADALUMBIR_NOT_RISING_BACK;
}

/* Writes the room of a name whose row is alone. Behind a row there are zeros to the end of its slot, which is one tuple
 * nearer where the first tuple is dropped. */
static inline void write_alone(const Back *back, const uint8_t *slot, uint8_t *out)
{
    if (back->row == name_of(slot) + TUPLE) {
        memcpy(out, back->row, NAME - TUPLE);
        put_tuple(out + NAME - TUPLE, 0, 0);
    } else {
        memcpy(out, back->row, NAME);
    }
}

static void write_back(const Renaming *renaming, const uint8_t *page, size_t page_len, uint8_t *out)
{
    for (size_t at = 0; at < page_len; at += SLOT) {
        Back back = take_back(renaming, page + at);
        size_t depth = back_depth(&back);
        put_head(out + at, depth, line_of(page + at));
        if (back.logged == NULL) {
            write_alone(&back, page + at, out + at + HEAD);
        } else {
            write_joined(&back, out + at + HEAD);
            put_rest(out + at, depth);
        }
    }
}

uint64_t kadalumbir_take_back(const uint8_t *page, size_t page_len, const uint8_t *log, size_t log_len, uint16_t node,
                              uint32_t sequence, uint8_t *out, size_t out_len)
{
    kadalumbir_answer answer = check_renaming(page, page_len, log, log_len, node);
    if (answer != KADALUMBIR_ACCEPTED)
        return refused(answer);
    Renaming renaming = renaming_of(log, log_len, node, sequence);
    answer = check_back(&renaming, page, page_len / SLOT);
    if (answer != KADALUMBIR_ACCEPTED)
        return refused(answer);
    if (out_len < page_len)
        return refused(KADALUMBIR_SHORT);
    write_back(&renaming, page, page_len, out);
    return accepted(page_len / SLOT);
}

/* ---- old pages */

uint64_t kadalumbir_from_old(const uint8_t *old, size_t old_len, uint8_t *out, size_t out_len)
{
    size_t count = old_len / OLD_SLOT;
    kadalumbir_answer answer = check_old(old, old_len);
    if (answer != KADALUMBIR_ACCEPTED)
        return refused(answer);
    if (out_len < count * SLOT)
        return refused(KADALUMBIR_SHORT);
    for (size_t i = 0; i < count; i++) {
        memcpy(out + i * SLOT, old + i * OLD_SLOT, OLD_SLOT);
        memset(out + i * SLOT + OLD_SLOT, 0, SLOT - OLD_SLOT);
    }
    return accepted(count);
}

static bool fits_old(const uint8_t *page, size_t page_len)
{
    for (size_t at = 0; at < page_len; at += SLOT)
        if (depth_of(page + at) > OLD_TUPLES)
            return false;
    return true;
}

uint64_t kadalumbir_to_old(const uint8_t *page, size_t page_len, uint8_t *out, size_t out_len)
{
    size_t count = page_len / SLOT;
    kadalumbir_answer answer = check_page(page, page_len);
    if (answer != KADALUMBIR_ACCEPTED)
        return refused(answer);
    if (!fits_old(page, page_len))
        return refused(KADALUMBIR_TOO_DEEP);
    if (out_len < count * OLD_SLOT)
        return refused(KADALUMBIR_SHORT);
    for (size_t i = 0; i < count; i++)
        memcpy(out + i * OLD_SLOT, page + i * SLOT, OLD_SLOT);
    return accepted(count);
}

/* ---- epochs: "node u16, sequence u32, parent index u16" of an entry as one number, and "the count" after it */

enum { COUNT_AT = 8 };

static inline uint64_t entry_at(const uint8_t *table, size_t i)
{
    return load64(table + i * ENTRY);
}

static inline uint64_t entry_pair(const uint8_t *table, size_t i)
{
    return entry_at(table, i) >> 16;
}

static inline size_t parent_of(const uint8_t *table, size_t i)
{
    return load16(table + i * ENTRY + 6);
}

static inline uint16_t count_of(const uint8_t *table, size_t i)
{
    return load16(table + i * ENTRY + COUNT_AT);
}

/* "by that number first, then node, then sequence": the three as one number, which is 0 for entry 0 alone. */
static inline uint64_t entry_key(const uint8_t *table, size_t i)
{
    return (uint64_t)count_of(table, i) << 48 | entry_pair(table, i);
}

/* "the number of names in its rename's log (u16, 1..256)" */
static inline bool is_count(uint16_t count)
{
    return count - 1u < SLOTS;
}

/* Whether some entry has this pair: entries that differ in the parent alone have the same. */
static APART bool lists_pair(const uint8_t *table, size_t count, uint64_t pair)
{
    const uint64_t word = swapped64(pair << 16), mask = swapped64(UINT64_MAX << 16);
    bool listed = false;
    for (size_t i = 0; i < count; i++)
        listed |= ((word64(table + i * ENTRY) ^ word) & mask) == 0;
    return listed;
}

/* "Every other entry has node at least 1, a parent index below its own index [..]"; "a count outside 1..256 in an entry
 * other than entry 0 is 13" */
static inline bool is_entry(const uint8_t *table, size_t i)
{
    return entry_at(table, i) >> 48 != 0 && parent_of(table, i) < i && is_count(count_of(table, i));
}

enum { NODE_GROUPS = 8 };

/* "entry 0 stays all zero"; "and a (node, sequence) that no other entry has": a sequence above the greatest so far of its
 * node's group makes a new pair, and another is looked for. */
static bool is_table(const uint8_t *table, size_t table_len)
{
    if (table_len % ENTRY != 0 || table_len < ENTRY || table_len > KADALUMBIR_TABLE_BYTES || entry_at(table, 0) != 0 ||
        count_of(table, 0) != 0)
        return false;
    uint32_t greatest[NODE_GROUPS] = {0};
    for (size_t i = 1; i < table_len / ENTRY; i++) {
        uint64_t pair = entry_pair(table, i);
        uint32_t sequence = (uint32_t)pair, *before = &greatest[(pair >> 32) % NODE_GROUPS];
        if (!is_entry(table, i) || (sequence <= *before && lists_pair(table, i, pair)))
            return false;
        if (sequence > *before)
            *before = sequence;
    }
    return true;
}

/* "paths compare entry by entry"; "a proper prefix is smaller": whether a's path is below b's. From the greater index
 * to its parent, again and again, the two come to the last entry that the paths share; the first that they do not share
 * is the one come from. Where a path ends there, entry 0, the smallest, stands for it. */
static bool path_below(const uint8_t *table, size_t a, size_t b)
{
    size_t a_behind = 0, b_behind = 0;
    while (a != b)
        if (a > b) {
            a_behind = a;
            a = parent_of(table, a);
        } else {
            b_behind = b;
            b = parent_of(table, b);
        }
    return entry_key(table, a_behind) < entry_key(table, b_behind);
}

/* "The target is the greatest." */
static size_t target_of(const uint8_t *table, size_t count)
{
    size_t target = 0;
    for (size_t i = 1; i < count; i++)
        if (path_below(table, target, i))
            target = i;
    return target;
}

uint64_t kadalumbir_check_epochs(const uint8_t *table, size_t table_len)
{
    return is_table(table, table_len) ? accepted(table_len / ENTRY) : refused(KADALUMBIR_BAD_TABLE);
}

/* Back from the target one comes to the current entry, with a child of it last; or past it, and then the way is up. */
uint64_t kadalumbir_next_step(const uint8_t *table, size_t table_len, size_t current, uint8_t *step, uint32_t *index)
{
    *step = KADALUMBIR_STAY;
    *index = 0;
    if (!is_table(table, table_len))
        return refused(KADALUMBIR_BAD_TABLE);
    if (current >= table_len / ENTRY)
        return refused(KADALUMBIR_NO_EPOCH);
    size_t at = target_of(table, table_len / ENTRY), child = at;
    if (at == current)
        return accepted(0);
    while (at > current) {
        child = at;
        at = parent_of(table, at);
    }
    *step = at == current ? KADALUMBIR_DOWN : KADALUMBIR_UP;
    *index = (uint32_t)(at == current ? child : parent_of(table, current));
    return accepted(0);
}

/* "Adding an epoch appends one entry in a second table." */
uint64_t kadalumbir_add_epoch(const uint8_t *table, size_t table_len, size_t parent, uint16_t node, uint32_t sequence,
                              uint16_t count, uint8_t *out, size_t out_len)
{
    size_t entries = table_len / ENTRY;
    if (!is_table(table, table_len))
        return refused(KADALUMBIR_BAD_TABLE);
    if (parent >= entries)
        return refused(KADALUMBIR_NO_EPOCH);
    if (node == 0)
        return refused(KADALUMBIR_NO_AUTHOR);
    if (!is_count(count))
        return refused(KADALUMBIR_BAD_TABLE);
    if (lists_pair(table, entries, pair_of(node, sequence)))
        return refused(KADALUMBIR_LISTED);
    if (entries == KADALUMBIR_ENTRIES)
        return refused(KADALUMBIR_TABLE_FULL);
    if (out_len < table_len + ENTRY)
        return refused(KADALUMBIR_SHORT);
    memcpy(out, table, table_len);
    store64(out + table_len, pair_of(node, sequence) << 16 | parent);
    store16(out + table_len + COUNT_AT, count);
    return accepted(entries + 1);
}

/* ---- messages: "Fields of one-byte tag, two-byte length, content" */

enum {
    FIELD = 3, /* tag and length */
    KIND_AT = FIELD, /* where the contents stand that every message begins with */
    EPOCH_AT = KIND_AT + 1 + FIELD,
    AUTHOR_AT = EPOCH_AT + 6 + FIELD,
    NAMES_AT = AUTHOR_AT + 6,
    LINE_FIELD = FIELD + 4
};

enum { KIND_TAG = 1, EPOCH_TAG, AUTHOR_TAG, NAME_TAG, LINE_TAG };

static inline bool is_field(const uint8_t *field, uint8_t tag, size_t length)
{
    return field[0] == tag && load16(field + 1) == length;
}

static inline uint8_t *put_field(uint8_t *field, uint8_t tag, size_t length)
{
    field[0] = tag;
    store16(field + 1, (uint16_t)length);
    return field + FIELD;
}

/* "1 insert, 2 remove, 3 rename"; "node 0 with another sequence is malformed"; an author's "node at least 1" */
static bool are_numbers(uint8_t kind, uint16_t epoch_node, uint32_t epoch_sequence, uint16_t author_node)
{
    return kind >= KADALUMBIR_INSERT && kind <= KADALUMBIR_RENAME && (epoch_node != 0 || epoch_sequence == 0) &&
           author_node != 0;
}

/* What stands behind the names: "for insert [..] tag 5 (line number, 4 bytes)" */
static inline size_t end_bytes(uint8_t kind)
{
    return kind == KADALUMBIR_INSERT ? LINE_FIELD : 0;
}

/* "for remove one tag 4; for rename 1..256 tags 4" */
static inline size_t most_names(uint8_t kind)
{
    return kind == KADALUMBIR_RENAME ? SLOTS : 1;
}

/* The depth of the name whose field, of this tag, stands between two places; 0 where none does. */
static inline size_t field_depth(const uint8_t *field, const uint8_t *end, uint8_t tag)
{
    if (end - field < FIELD || field[0] != tag)
        return 0;
    size_t length = load16(field + 1), depth = length / TUPLE;
    if (length > (size_t)(end - field) - FIELD || length % TUPLE != 0 || depth < 1 || depth > TUPLES)
        return 0;
    return is_name(field + FIELD, depth) ? depth : 0;
}

/* How many names stand there, one after another to the end and rising; 0 where something else does. */
static size_t count_names(const uint8_t *field, const uint8_t *end, size_t most)
{
    const uint8_t *before = NULL;
    size_t before_depth = 0, count = 0;
    while (field != end) {
        size_t depth = field_depth(field, end, NAME_TAG);
        if (depth == 0 || count == most || compare_rows(before, before_depth, field + FIELD, depth) >= 0)
            return 0;
        before = field + FIELD;
        before_depth = depth;
        field = before + depth * TUPLE;
        count++;
    }
    return count;
}

/* The number of a message's names; 0 where it is malformed. */
static size_t check_message(const uint8_t *message, size_t message_len)
{
    if (message_len < NAMES_AT || !is_field(message + KIND_AT - FIELD, KIND_TAG, 1) ||
        !is_field(message + EPOCH_AT - FIELD, EPOCH_TAG, 6) || !is_field(message + AUTHOR_AT - FIELD, AUTHOR_TAG, 6))
        return 0;
    uint8_t kind = message[KIND_AT];
    if (!are_numbers(kind, load16(message + EPOCH_AT), load32(message + EPOCH_AT + 2), load16(message + AUTHOR_AT)))
        return 0;
    if (message_len - NAMES_AT < end_bytes(kind))
        return 0;
    const uint8_t *end = message + message_len - end_bytes(kind);
    if (kind == KADALUMBIR_INSERT && !is_field(end, LINE_TAG, 4))
        return 0;
    return count_names(message + NAMES_AT, end, most_names(kind));
}

/* "the names, in slots with line number 0" */
static void write_slots(const uint8_t *field, size_t count, uint8_t *out)
{
    for (uint8_t *slot = out; slot < out + count * SLOT; slot += SLOT) {
        size_t length = load16(field + 1), depth = length / TUPLE;
        put_head(slot, depth, 0);
        memcpy(slot + HEAD, field + FIELD, length);
        put_rest(slot, depth);
        field += FIELD + length;
    }
}

uint64_t kadalumbir_read_message(const uint8_t *message, size_t message_len, uint8_t *kind, uint16_t *epoch_node,
                                 uint32_t *epoch_sequence, uint16_t *author_node, uint32_t *author_sequence,
                                 uint32_t *line, uint8_t *out, size_t out_len)
{
    *kind = 0;
    *epoch_node = *author_node = 0;
    *epoch_sequence = *author_sequence = *line = 0;
    size_t count = check_message(message, message_len);
    if (count == 0)
        return refused(KADALUMBIR_MALFORMED);
    if (out_len < count * SLOT)
        return refused(KADALUMBIR_SHORT);
    *kind = message[KIND_AT];
    *epoch_node = load16(message + EPOCH_AT);
    *epoch_sequence = load32(message + EPOCH_AT + 2);
    *author_node = load16(message + AUTHOR_AT);
    *author_sequence = load32(message + AUTHOR_AT + 2);
    if (*kind == KADALUMBIR_INSERT)
        *line = load32(message + message_len - 4);
    write_slots(message + NAMES_AT, count, out);
    return accepted(count);
}

static size_t message_bytes(uint8_t kind, const uint8_t *names, size_t names_len)
{
    size_t length = NAMES_AT + end_bytes(kind);
    for (size_t at = 0; at < names_len; at += SLOT)
        length += FIELD + depth_of(names + at) * TUPLE;
    return length;
}

static uint8_t *put_pair(uint8_t *field, uint8_t tag, uint16_t node, uint32_t sequence)
{
    uint8_t *content = put_field(field, tag, 6);
    store16(content, node);
    store32(content + 2, sequence);
    return content + 6;
}

static uint8_t *put_names(uint8_t *field, const uint8_t *names, size_t names_len)
{
    for (size_t at = 0; at < names_len; at += SLOT) {
        size_t length = depth_of(names + at) * TUPLE;
        uint8_t *content = put_field(field, NAME_TAG, length);
        memcpy(content, name_of(names + at), length);
        field = content + length;
    }
    return field;
}

uint64_t kadalumbir_write_message(uint8_t kind, uint16_t epoch_node, uint32_t epoch_sequence, uint16_t author_node,
                                  uint32_t author_sequence, uint32_t line, const uint8_t *names, size_t names_len,
                                  uint8_t *out, size_t out_len)
{
    if (!are_numbers(kind, epoch_node, epoch_sequence, author_node) || (line != 0 && kind != KADALUMBIR_INSERT) ||
        names_len > most_names(kind) * SLOT || !is_log(names, names_len))
        return refused(KADALUMBIR_MALFORMED);
    size_t length = message_bytes(kind, names, names_len);
    if (out_len < length)
        return refused(KADALUMBIR_SHORT);
    uint8_t *field = put_field(out, KIND_TAG, 1);
    *field++ = kind;
    field = put_pair(field, EPOCH_TAG, epoch_node, epoch_sequence);
    field = put_pair(field, AUTHOR_TAG, author_node, author_sequence);
    field = put_names(field, names, names_len);
    if (kind == KADALUMBIR_INSERT)
        store32(put_field(field, LINE_TAG, 4), line);
    return accepted(length);
}

/* ---- forms: "the first name, a length and the line numbers in order"; "tag 6 a name, tag 7 a length of two bytes, tag 8
 * the line numbers, four bytes each, group after group" */

enum { FIRST_TAG = 6, LENGTH_TAG, LINES_TAG };

/* Between a group's name and its line numbers stand eight bytes, read and written as one number: the field of the length,
 * and tag and length of the field of the line numbers. */
enum { SIZES = 8, LINE = 4, MOST_LINES = UINT16_MAX / LINE };

static inline uint64_t sizes_of(size_t count)
{
    const uint64_t none = (uint64_t)LENGTH_TAG << 56 | (uint64_t)2 << 40 | (uint64_t)LINES_TAG << 16;
    return none + ((uint64_t)count << 24) + LINE * count;
}

/* A group where it stands. Its names are the row, with the last offset raised by 0, by 1 and so on. */
typedef struct {
    const uint8_t *row; /* the first name */
    size_t length;      /* its bytes */
    size_t depth, count;
} Group;

static inline Group group_of(const uint8_t *row, size_t length, size_t count)
{
    Group group = {row, length, length / TUPLE, count};
    return group;
}

/* A name alone, as a group of one. */
static inline Group alone_in(const uint8_t *slot)
{
    Group group = {name_of(slot), depth_of(slot) * TUPLE, depth_of(slot), 1};
    return group;
}

static inline const uint8_t *sizes_at(const Group *group)
{
    return group->row + group->length;
}

static inline const uint8_t *lines_at(const Group *group)
{
    return sizes_at(group) + SIZES;
}

static inline const uint8_t *end_of(const Group *group)
{
    return lines_at(group) + group->count * LINE;
}

static inline uint32_t last_offset(const Group *group)
{
    return load32(sizes_at(group) - 4) + (uint32_t)group->count - 1;
}

/* The bytes of a group, its line numbers apart. */
static inline size_t head_bytes(size_t depth)
{
    return FIELD + depth * TUPLE + SIZES;
}

/* The group that begins at a place of a form that is checked. */
static inline Group group_at(const uint8_t *field)
{
    size_t length = load16(field + 1);
    return group_of(field + FIELD, length, load16(field + FIELD + length + FIELD));
}

/* Whether a group stands there, with all of its names, and where the next would: "malformed, has a length of 0". */
static inline bool read_group(const uint8_t *field, const uint8_t *end, Group *group, const uint8_t **next)
{
    if (end - field < FIELD + SIZES)
        return false;
    group->row = field + FIELD;
    group->length = load16(field + 1);
    group->depth = field_depth(field, end - SIZES, FIRST_TAG);
    if (group->depth == 0)
        return false;
    uint64_t sizes = load64(sizes_at(group));
    group->count = (uint16_t)(sizes >> 24);
    if (group->count - 1 >= MOST_LINES || sizes != sizes_of(group->count) ||
        (size_t)(end - lines_at(group)) < group->count * LINE)
        return false;
    *next = end_of(group);
    return last_offset(group) < INT32_MAX;
}

/* How a name stands to a group's last: not above it, the next, which would be of the group, or above that. */
typedef enum { BELOW, NEXT, ABOVE } Step;

static inline Step step_from(const Group *group, const uint8_t *row, size_t depth)
{
    size_t before = group->depth - 1;
    int order = compare_rows(group->row, before, row, depth < before ? depth : before);
    if (order != 0 || depth <= before)
        return order < 0 ? ABOVE : BELOW;
    const uint8_t *a = group->row + before * TUPLE, *b = row + before * TUPLE;
    if (word64(a) != word64(b))
        return key_of(a) < key_of(b) ? ABOVE : BELOW;
    uint32_t last = last_offset(group), offset = offset_of(b);
    if (depth > group->depth)
        return rank_of(last) <= rank_of(offset) ? ABOVE : BELOW;
    return last + 1 == offset ? NEXT : last < offset ? ABOVE : BELOW;
}

/* What a form's check finds: how many slots it has, and for a slot's name the last group that begins with it or below it,
 * and the group before that; NULL where there is none. */
typedef struct {
    size_t count;
    const uint8_t *before, *here;
} Found;

/* "15 for a form that is malformed, has a length of 0 or isn't longest, then 2, then 11 for more than 256 slots". The slot
 * may be missing. */
static inline kadalumbir_answer check_form(const uint8_t *form, size_t form_len, const uint8_t *slot, Found *found)
{
    Group before = group_of(NULL, 0, 0), group;
    bool rise = true;
    found->count = 0;
    found->before = found->here = NULL;
    const uint8_t *next = form, *const end = form + form_len;
    while (next != end) {
        const uint8_t *field = next;
        if (!read_group(field, end, &group, &next))
            return KADALUMBIR_MALFORMED;
        Step step = field == form ? ABOVE : step_from(&before, group.row, group.depth);
        if (step == NEXT)
            return KADALUMBIR_MALFORMED;
        rise = rise && step == ABOVE;
        if (slot != NULL && compare_rows(group.row, group.depth, name_of(slot), depth_of(slot)) <= 0) {
            found->before = found->here;
            found->here = field;
        } else {
            slot = NULL;
        }
        found->count += group.count;
        before = group;
    }
    if (!rise)
        return KADALUMBIR_NOT_RISING;
    return found->count > SLOTS ? KADALUMBIR_FULL : KADALUMBIR_ACCEPTED;
}

/* "then 1 (slot)" */
static kadalumbir_answer check_form_edit(const uint8_t *form, size_t form_len, const uint8_t *slot, size_t slot_len,
                                         Found *found)
{
    bool good = slot_len == SLOT && is_slot(TUPLES, slot);
    kadalumbir_answer answer = check_form(form, form_len, good ? slot : NULL, found);
    return answer == KADALUMBIR_ACCEPTED && !good ? KADALUMBIR_BAD_LAYOUT : answer;
}

/* Few tuples cost less one by one than a call of memcpy. */
static inline void copy_tuples(uint8_t *out, const uint8_t *row, size_t length)
{
    for (size_t at = 0; at < length; at += TUPLE)
        memcpy(out + at, row + at, TUPLE);
}

/* Writes what stands before a group's line numbers, with the last offset raised; gives where they go. */
static inline uint8_t *put_group(uint8_t *field, const Group *group, size_t raised, size_t count)
{
    uint8_t *row = put_field(field, FIRST_TAG, group->length), *sizes = row + group->length;
    copy_tuples(row, group->row, group->length);
    store32(sizes - 4, load32(sizes - 4) + (uint32_t)raised);
    store64(sizes, sizes_of(count));
    return sizes + SIZES;
}

/* "strictly rising names", and the bytes of the form of a page whose layout is checked. */
static APART bool measure_form(const uint8_t *page, size_t page_len, size_t *length)
{
    *length = page_len / SLOT * LINE + (page_len > 0 ? head_bytes(depth_of(page)) : 0);
    for (size_t at = SLOT; at < page_len; at += SLOT) {
        const uint8_t *slot = page + at;
        Group before = alone_in(slot - SLOT);
        Step step = step_from(&before, name_of(slot), depth_of(slot));
        if (step == BELOW)
            return false;
        if (step == ABOVE)
            *length += head_bytes(depth_of(slot));
    }
    return true;
}

/* Whether a slot of a page is of the group of the one before it. */
static inline bool goes_on(const uint8_t *before, const uint8_t *slot)
{
    size_t depth = depth_of(slot);
    const uint8_t *a = name_of(before) + (depth - 1) * TUPLE, *b = name_of(slot) + (depth - 1) * TUPLE;
    return depth_of(before) == depth && offset_of(a) + 1 == offset_of(b) && word64(a) == word64(b) &&
           compare_rows(name_of(before), depth - 1, name_of(slot), depth - 1) == 0;
}

/* "Groups are as long as possible" */
static void write_form(const uint8_t *page, size_t page_len, uint8_t *out)
{
    for (size_t at = 0; at < page_len;) {
        const Group first = alone_in(page + at);
        uint8_t *lines = out + head_bytes(first.depth);
        size_t count = 0;
        do {
            memcpy(lines + count * LINE, page + at + 4, LINE);
            count++;
            at += SLOT;
        } while (at < page_len && goes_on(page + at - SLOT, page + at));
        put_group(out, &first, 0, count);
        out = lines + count * LINE;
    }
}

uint64_t kadalumbir_group(const uint8_t *page, size_t page_len, uint8_t *out, size_t out_len)
{
    size_t length;
    if (!keeps_layout(page, page_len))
        return refused(KADALUMBIR_BAD_LAYOUT);
    if (!measure_form(page, page_len, &length))
        return refused(KADALUMBIR_NOT_RISING);
    if (out_len < length)
        return refused(KADALUMBIR_SHORT);
    write_form(page, page_len, out);
    return accepted(length);
}

/* A group's slots, one after the other: to clear a whole slot costs less than to clear its rest. */
static inline void write_group(const Group *group, uint8_t *slot)
{
    uint32_t offset = load32(sizes_at(group) - 4);
    for (size_t i = 0; i < group->count; i++, slot += SLOT) {
        memset(slot, 0, SLOT);
        put_head(slot, group->depth, load32(lines_at(group) + i * LINE));
        copy_tuples(slot + HEAD, group->row, group->length);
        store32(slot + HEAD + group->length - 4, offset + (uint32_t)i);
    }
}

uint64_t kadalumbir_ungroup(const uint8_t *form, size_t form_len, uint8_t *out, size_t out_len)
{
    Found found;
    kadalumbir_answer answer = check_form(form, form_len, NULL, &found);
    if (answer != KADALUMBIR_ACCEPTED)
        return refused(answer);
    if (out_len < found.count * SLOT)
        return refused(KADALUMBIR_SHORT);
    for (size_t at = 0; at < form_len;) {
        Group group = group_at(form + at);
        write_group(&group, out);
        out += group.count * SLOT;
        at = (size_t)(end_of(&group) - form);
    }
    return accepted(found.count);
}

/* Where a name that is not below a group's first stands in the group. */
static Place find_in_group(const Group *group, const uint8_t *slot)
{
    size_t before = group->depth - 1, depth = depth_of(slot);
    const uint8_t *a = group->row + before * TUPLE, *b = name_of(slot) + before * TUPLE;
    Place place = {group->count, false};
    if (depth <= before || compare_rows(group->row, before, name_of(slot), before) != 0 || word64(a) != word64(b))
        return place;
    uint32_t further = offset_of(b) - offset_of(a);
    if (further < group->count) {
        place.present = depth == group->depth;
        place.below = further + !place.present;
    }
    return place;
}

/* "splitting": a name between two of a group. */
static uint64_t insert_inside(const uint8_t *form, size_t form_len, const Group *here, size_t below, const uint8_t *slot,
                              uint8_t *out, size_t out_len)
{
    const Group alone = alone_in(slot);
    size_t cut = (size_t)(lines_at(here) - form) + below * LINE;
    size_t length = form_len + head_bytes(alone.depth) + LINE + head_bytes(here->depth);
    if (out_len < length)
        return refused(KADALUMBIR_SHORT);
    copy(out, 0, form, 0, cut);
    store64(out + (sizes_at(here) - form), sizes_of(below));
    uint8_t *lines = put_group(out + cut, &alone, 0, 1);
    memcpy(lines, slot + 4, LINE);
    lines = put_group(lines + LINE, here, below, here->count - below);
    copy(lines, 0, form, cut, form_len);
    return accepted(length);
}

/* "joining": a name behind a group, or before all of them, may be the next of that group, and the next group's first the
 * next of it. */
static uint64_t insert_between(const uint8_t *form, size_t form_len, const Group *here, const uint8_t *slot, uint8_t *out,
                               size_t out_len)
{
    const Group alone = alone_in(slot);
    size_t at = here != NULL ? (size_t)(end_of(here) - form) : 0, rest = at, count = 1;
    size_t length = form_len + LINE + head_bytes(alone.depth);
    bool follows = here != NULL && step_from(here, alone.row, alone.depth) == NEXT;
    if (follows) {
        count += here->count;
        length -= head_bytes(alone.depth);
    }
    if (at < form_len) {
        Group next = group_at(form + at);
        if (step_from(&alone, next.row, next.depth) == NEXT) {
            count += next.count;
            length -= head_bytes(next.depth);
            rest = (size_t)(lines_at(&next) - form);
        }
    }
    if (out_len < length)
        return refused(KADALUMBIR_SHORT);
    uint8_t *line = out + at;
    copy(out, 0, form, 0, at);
    if (follows)
        store64(out + (sizes_at(here) - form), sizes_of(count));
    else
        line = put_group(line, &alone, 0, count);
    memcpy(line, slot + 4, LINE);
    copy(line, LINE, form, rest, form_len);
    return accepted(length);
}

/* "Insert and remove should also work on the grouped form, splitting and joining, and agree with the page." */
uint64_t kadalumbir_group_insert(const uint8_t *form, size_t form_len, const uint8_t *slot, size_t slot_len, uint8_t *out,
                                 size_t out_len)
{
    Found found;
    Group here = group_of(NULL, 0, 0);
    Place place = {0, false};
    kadalumbir_answer answer = check_form_edit(form, form_len, slot, slot_len, &found);
    if (answer != KADALUMBIR_ACCEPTED)
        return refused(answer);
    if (found.here != NULL) {
        here = group_at(found.here);
        place = find_in_group(&here, slot);
    }
    if (place.present)
        return refused(KADALUMBIR_PRESENT);
    if (found.count == SLOTS)
        return refused(KADALUMBIR_FULL);
    if (place.below < here.count)
        return insert_inside(form, form_len, &here, place.below, slot, out, out_len);
    return insert_between(form, form_len, found.here != NULL ? &here : NULL, slot, out, out_len);
}

/* Without the only slot of its group, the groups at both sides may be one. */
static uint64_t remove_group(const uint8_t *form, size_t form_len, const Found *found, const Group *here, uint8_t *out,
                             size_t out_len)
{
    size_t begin = (size_t)(found->here - form), rest = (size_t)(end_of(here) - form), count = 0;
    Group before = group_of(NULL, 0, 0);
    if (found->before != NULL && rest < form_len) {
        Group next = group_at(form + rest);
        before = group_at(found->before);
        if (step_from(&before, next.row, next.depth) == NEXT) {
            count = before.count + next.count;
            rest = (size_t)(lines_at(&next) - form);
        }
    }
    size_t length = begin + form_len - rest;
    if (out_len < length)
        return refused(KADALUMBIR_SHORT);
    copy(out, 0, form, 0, begin);
    if (count > 0)
        store64(out + (sizes_at(&before) - form), sizes_of(count));
    copy(out, begin, form, rest, form_len);
    return accepted(length);
}

/* Without one of several slots a group begins with the next name, or ends earlier, or becomes two. */
static uint64_t remove_line(const uint8_t *form, size_t form_len, const Group *here, size_t below, uint8_t *out,
                            size_t out_len)
{
    size_t cut = (size_t)(lines_at(here) - form) + below * LINE, above = here->count - 1 - below;
    size_t length = form_len - LINE + (below > 0 && above > 0 ? head_bytes(here->depth) : 0);
    if (out_len < length)
        return refused(KADALUMBIR_SHORT);
    uint8_t *lines = out + cut, *sizes = out + (sizes_at(here) - form);
    copy(out, 0, form, 0, cut);
    store64(sizes, sizes_of(below > 0 ? below : above));
    if (below == 0)
        store32(sizes - 4, load32(sizes - 4) + 1);
    else if (above > 0)
        lines = put_group(lines, here, below + 1, above);
    copy(lines, 0, form, cut + LINE, form_len);
    return accepted(length);
}

uint64_t kadalumbir_group_remove(const uint8_t *form, size_t form_len, const uint8_t *slot, size_t slot_len, uint8_t *out,
                                 size_t out_len)
{
    Found found;
    kadalumbir_answer answer = check_form_edit(form, form_len, slot, slot_len, &found);
    if (answer != KADALUMBIR_ACCEPTED)
        return refused(answer);
    if (found.here == NULL)
        return refused(KADALUMBIR_ABSENT);
    Group here = group_at(found.here);
    Place place = find_in_group(&here, slot);
    if (!place.present)
        return refused(KADALUMBIR_ABSENT);
    if (here.count == 1)
        return remove_group(form, form_len, &found, &here, out, out_len);
    return remove_line(form, form_len, &here, place.below, out, out_len);
}
