/*
 * A book goes over the old radio in one packet. As a page it does not fit, and as a form neither while it is fresh; after a
 * rename of all its names it is one group, and does. The unit that receives it makes the same page of it, or takes lines in
 * and out of the form as it came, in the room of a packet and with no page.
 */
#include <kadalumbir.h>
#include <stdio.h>
#include <stdlib.h>
#include <string.h>

/* An assumption: what a packet of the old radio really holds is to be looked up. */
enum { PACKET_BYTES = 1200 };

enum { SENDER = 7, LINES = 100, LINE_BYTE = 4 /* where the line number begins in a slot */ };

typedef struct {
    size_t len;
    uint8_t bytes[KADALUMBIR_PAGE_BYTES];
} Page;

typedef struct {
    size_t len;
    uint8_t bytes[PACKET_BYTES];
} Packet;

static Page book, second; /* the sender's, and what a call makes of it */
static uint32_t sequence; /* of the last name or rename that the sender made */
static Packet held;       /* the form that the receiver has */

static void failed(const char *what)
{
    fflush(stdout);
    fprintf(stderr, "radio: FAILED: %s\n", what);
    exit(1);
}

/* The count of a call, which must be accepted. */
static uint32_t accepted(uint64_t result)
{
    if (kadalumbir_answer_of(result) != KADALUMBIR_ACCEPTED)
        failed("a call is refused");
    return kadalumbir_count_of(result);
}

static void write_line(uint8_t *slot, uint32_t line)
{
    for (int i = 0; i < 4; i++)
        slot[LINE_BYTE + i] = (uint8_t)(line >> (24 - 8 * i));
}

static unsigned lines_of(const Page *page)
{
    return (unsigned)(page->len / KADALUMBIR_SLOT_BYTES);
}

/* The second page takes the place of the sender's. */
static void take_second(uint64_t result)
{
    second.len = accepted(result) * KADALUMBIR_SLOT_BYTES;
    book = second;
}

/* Adds a line to the book under a new name for the gap, and leaves its slot to the caller. */
static void add_line(size_t gap, uint8_t *slot)
{
    accepted(kadalumbir_new_name(book.bytes, book.len, gap, SENDER, ++sequence, slot, KADALUMBIR_SLOT_BYTES));
    write_line(slot, lines_of(&book) + 1);
    take_second(kadalumbir_insert(book.bytes, book.len, slot, KADALUMBIR_SLOT_BYTES, second.bytes, sizeof second.bytes));
}

/* Goes through the gaps from the first to the last, again and again, so that the names stay short. */
static void write_book(unsigned lines)
{
    uint8_t slot[KADALUMBIR_SLOT_BYTES];
    book.len = 0;
    for (size_t gap = 0; lines_of(&book) < lines; gap = gap + 2 <= lines_of(&book) ? gap + 2 : 0)
        add_line(gap, slot);
}

/* Renames all lines: the log is the book with line numbers 0. */
static void rename_book(void)
{
    static Page log;
    log = book;
    for (size_t at = 0; at < log.len; at += KADALUMBIR_SLOT_BYTES)
        write_line(log.bytes + at, 0);
    take_second(kadalumbir_rename(book.bytes, book.len, log.bytes, log.len, SENDER, ++sequence, second.bytes,
                                  sizeof second.bytes));
}

/* Puts the book into a packet, where it fits: that it does not is answer 8. Prints its bytes both ways. */
static void send_book(const char *state, Packet *packet)
{
    static uint8_t form[KADALUMBIR_FORM_BYTES];
    uint32_t form_len = accepted(kadalumbir_group(book.bytes, book.len, form, sizeof form));
    uint64_t result = kadalumbir_group(book.bytes, book.len, packet->bytes, sizeof packet->bytes);
    int fits = kadalumbir_answer_of(result) != KADALUMBIR_SHORT;
    packet->len = fits ? accepted(result) : 0;
    printf("%-17s | %5u | %10u | %10u | %s\n", state, lines_of(&book), (unsigned)book.len, (unsigned)form_len,
           fits ? "yes" : "no");
}

/* Makes a page of a packet, which must be the sender's. */
static void receive(const Packet *packet)
{
    static Page made;
    uint64_t result = kadalumbir_ungroup(packet->bytes, packet->len, made.bytes, sizeof made.bytes);
    if (accepted(result) != lines_of(&book) || memcmp(made.bytes, book.bytes, book.len) != 0)
        failed("the receiver's page is not the sender's");
}

/* kadalumbir_group_insert or kadalumbir_group_remove */
typedef uint64_t (*Edit)(const uint8_t *form, size_t form_len, const uint8_t *slot, size_t slot_len, uint8_t *out,
                         size_t out_len);

/* Edits the form that is held, unless it would not fit a packet any more. */
static int edit_held(Edit edit, const uint8_t *slot)
{
    static Packet after;
    uint64_t result = edit(held.bytes, held.len, slot, KADALUMBIR_SLOT_BYTES, after.bytes, sizeof after.bytes);
    if (kadalumbir_answer_of(result) == KADALUMBIR_SHORT)
        return 0;
    after.len = accepted(result);
    held = after;
    return 1;
}

/* A line goes in, where it splits the group in two, and out, where it joins them; then lines until no more fit. */
static void show_edits(const Packet *sent)
{
    uint8_t slot[KADALUMBIR_SLOT_BYTES];
    unsigned fit = 0;
    held = *sent;
    add_line(LINES / 2, slot);
    if (!edit_held(kadalumbir_group_insert, slot))
        failed("one line more does not fit");
    receive(&held);
    printf("With line %u in the middle it is %u bytes", lines_of(&book), (unsigned)held.len);
    if (!edit_held(kadalumbir_group_remove, slot) || held.len != sent->len ||
        memcmp(held.bytes, sent->bytes, sent->len) != 0)
        failed("without the line the form is not what it was");
    printf(", and without it the same %u again.\n", (unsigned)held.len);
    while (edit_held(kadalumbir_group_insert, slot))
        add_line(4 * ++fit, slot);
    printf("With %u lines here and there it is %u, and one more does not fit: it is time for the next rename.\n\n", fit,
           (unsigned)held.len);
}

int main(void)
{
    static Packet sent;
    printf("The old radio sends a book in one packet. That a packet holds %d bytes is an assumption.\n\n", PACKET_BYTES);
    printf("%-17s | lines | page bytes | form bytes | fits a packet\n", "the sender's book");
    write_book(KADALUMBIR_SLOTS);
    send_book("fresh and full", &sent);
    rename_book();
    send_book("renamed", &sent);
    receive(&sent);
    write_book(LINES);
    send_book("fresh", &sent);
    rename_book();
    send_book("renamed", &sent);
    receive(&sent);
    puts("\nThe receiver makes the same pages of what was sent, byte for byte. It also edits the last form as it came.");
    show_edits(&sent);
    send_book("with that line", &sent);
    rename_book();
    send_book("renamed", &sent);
    receive(&sent);
    return 0;
}
