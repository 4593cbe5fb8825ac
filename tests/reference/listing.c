#include "listing.h"

#include <inttypes.h>

/* "the tuples as position.node.sequence.offset joined by `/`, all in decimal, a negative offset with `-`" */
void list_name(const Name *name, FILE *out)
{
    for (size_t i = 0; i < name->depth; i++) {
        Tuple t = name->tuples[i];
        if (i > 0)
            fputc('/', out);
        fprintf(out, "%" PRIu16 ".%" PRIu16 ".%" PRIu32 ".%" PRId32, t.position, t.node, t.sequence, t.offset);
    }
}

/* "per slot: line number, depth, and the tuples [..], each line ended by one newline" */
static void list_slot(const Slot *slot, FILE *out)
{
    fprintf(out, "%" PRIu32 " %zu ", slot->line, slot->name.depth);
    list_name(&slot->name, out);
    fputc('\n', out);
}

/* "A bad page gives only the line `refused 1` or `refused 2`; [..] Empty input gives the header." */
void list_page_of(size_t limit, const uint8_t *bytes, size_t length, FILE *out)
{
    int answer = check_page_of(limit, bytes, length);
    if (answer != ACCEPTED) {
        fprintf(out, "refused %d\n", answer);
        return;
    }
    fputs("line depth name\n", out);
    for (size_t at = 0; at < length; at += SLOT_BYTES_OF(limit)) {
        Slot slot;
        read_slot_of(limit, bytes + at, &slot);
        list_slot(&slot, out);
    }
}

void list_page(const uint8_t *bytes, size_t length, FILE *out)
{
    list_page_of(DEPTH_LIMIT, bytes, length, out);
}
