/*
 * Three loggers edit one line book at the same time, each its own copy of it. What they tell each other comes late, twice
 * and in different orders; when all of it has come, the three books are alike. Then a spare logger comes back with a
 * rename of a short book, which moves none of the three. Then one book alone: which gain applies to each reading, before
 * a rename, after it and after its taking back; and the three's book, handed to a unit that still has old pages. All of
 * it is done by the calls of kadalumbir.h.
 */
#include <kadalumbir.h>
#include <stdio.h>
#include <stdlib.h>
#include <string.h>

/* What each logger does in each round: + inserts a line, - removes one, R renames the book. */
enum { LOGGERS = 3, ROUNDS = 10 };
static const char plan[ROUNDS][LOGGERS + 1] = {"+++", "+++", "+++", "R+R", "+R+", "-++", "++-", "R++", "+-R", "-+-"};

/* The spare logger had the book's first lines, one of each of the three, and writes one message, a rename of them. */
enum { SPARE_NODE = 900, SPARE_LINES = LOGGERS, SPARE_MESSAGES = 1 };

enum { MESSAGES = LOGGERS * ROUNDS + SPARE_MESSAGES, COPIES = MESSAGES * LOGGERS * 2 };
enum { LINE_BYTE = 4, NAME_BYTE = 8 }; /* where the line number and the name begin in a slot */
enum { PARENT_BYTE = 6, COUNT_BYTE = 8 }; /* where the parent's index and the count begin in an entry */
enum { NAME_TEXT = KADALUMBIR_TUPLES * 36 }; /* a tuple is at most 5, 5, 10 and 11 characters, three points and a slash */

/* (node, sequence): a message by its author, and an epoch by the rename that made it. The first epoch is (0, 0). */
typedef struct {
    uint16_t node;
    uint32_t sequence;
} Pair;

typedef struct {
    size_t len;
    uint8_t bytes[KADALUMBIR_PAGE_BYTES];
} Page;

typedef struct {
    size_t len;
    uint8_t bytes[KADALUMBIR_MESSAGE_BYTES];
} Message;

/* What a message says. */
typedef struct {
    uint8_t kind;
    Pair epoch, author;
    uint32_t line;
    Page names;
} Parts;

typedef struct {
    uint16_t node;
    uint32_t sequence; /* of its last message */
    uint32_t lines;    /* that it has written */
    Page book;
    uint8_t table[KADALUMBIR_TABLE_BYTES];
    size_t table_len;
    size_t current;                /* the entry of the epoch that the book's names belong to */
    Page logs[KADALUMBIR_ENTRIES]; /* of the rename that made each entry; its author is the entry's pair */
    Pair delivered[MESSAGES];
    size_t delivered_count;
    const Message *waiting[MESSAGES];
    size_t waiting_count;
} Logger;

typedef struct {
    const Message *message;
    Logger *to;
} Copy;

static Logger crew[LOGGERS], spare;
static Message written[MESSAGES];
static size_t written_count;
static Copy under_way[COPIES];
static size_t under_way_count;

/* What happened, over all three. */
static unsigned copies, repeats, waits, translated, taken_back;

/* ---- numbers */

/* The same numbers in each run, so that each run prints the same. */
static uint32_t chance(uint32_t limit)
{
    static uint32_t state = 2240;
    state = state * 1664525u + 1013904223u;
    return (state >> 16) % limit;
}

static uint16_t read_u16(const uint8_t *bytes)
{
    return (uint16_t)(bytes[0] << 8 | bytes[1]);
}

static uint32_t read_u32(const uint8_t *bytes)
{
    return (uint32_t)read_u16(bytes) << 16 | read_u16(bytes + 2);
}

static void write_u32(uint8_t *bytes, uint32_t number)
{
    for (int i = 0; i < 4; i++)
        bytes[i] = (uint8_t)(number >> (24 - 8 * i));
}

static Pair read_pair(const uint8_t *bytes)
{
    Pair pair = {read_u16(bytes), read_u32(bytes + 2)};
    return pair;
}

static int same_pair(Pair a, Pair b)
{
    return a.node == b.node && a.sequence == b.sequence;
}

static void failed(const char *what)
{
    fflush(stdout);
    fprintf(stderr, "crew: FAILED: %s\n", what);
    exit(1);
}

/* The count of a call. This run ends at a refusal, and meets none. With other numbers from chance it can meet 6, 7 and 12,
 * which a logger in the field must be ready for: a gap without a new name, and a rename that cannot be followed. */
static uint32_t accepted(uint64_t result, const char *call)
{
    if (kadalumbir_answer_of(result) != KADALUMBIR_ACCEPTED) {
        fprintf(stderr, "crew: %s is answered %d\n", call, (int)kadalumbir_answer_of(result));
        failed("a call is refused");
    }
    return kadalumbir_count_of(result);
}

/* ---- pages */

static size_t slots_of(const Page *page)
{
    return page->len / KADALUMBIR_SLOT_BYTES;
}

static const uint8_t *slot_at(const Page *page, size_t index)
{
    return page->bytes + index * KADALUMBIR_SLOT_BYTES;
}

static uint32_t line_of(const uint8_t *slot)
{
    return read_u32(slot + LINE_BYTE);
}

/* The (node, sequence) of the name's last tuple. */
static Pair last_pair(const uint8_t *slot)
{
    return read_pair(slot + NAME_BYTE + (slot[0] - 1) * KADALUMBIR_TUPLE_BYTES + 2);
}

static int same_page(const Page *a, const Page *b)
{
    return a->len == b->len && memcmp(a->bytes, b->bytes, a->len) == 0;
}

/* Slots as they go into a message or a log, with line numbers 0. */
static void copy_names(const uint8_t *slots, size_t count, Page *names)
{
    names->len = count * KADALUMBIR_SLOT_BYTES;
    memcpy(names->bytes, slots, names->len);
    for (size_t i = 0; i < count; i++)
        write_u32(names->bytes + i * KADALUMBIR_SLOT_BYTES + LINE_BYTE, 0);
}

/* An output must not overlap an input: the library writes a second page, which then takes the place of the first. */
static Page second;

static void take_second(Page *page, uint32_t slots)
{
    page->len = slots * KADALUMBIR_SLOT_BYTES;
    memcpy(page->bytes, second.bytes, page->len);
}

static void insert_slot(Page *page, const uint8_t *slot)
{
    uint64_t result = kadalumbir_insert(page->bytes, page->len, slot, KADALUMBIR_SLOT_BYTES, second.bytes,
                                        sizeof second.bytes);
    take_second(page, accepted(result, "insert"));
}

/* Two loggers may remove one line at the same time: that it is already gone is no fault. */
static void remove_slot(Page *page, const uint8_t *slot)
{
    uint64_t result = kadalumbir_remove(page->bytes, page->len, slot, KADALUMBIR_SLOT_BYTES, second.bytes,
                                        sizeof second.bytes);
    if (kadalumbir_answer_of(result) != KADALUMBIR_ABSENT)
        take_second(page, accepted(result, "remove"));
}

static void rename_page(Page *page, const Page *log, Pair author)
{
    uint64_t result = kadalumbir_rename(page->bytes, page->len, log->bytes, log->len, author.node, author.sequence,
                                        second.bytes, sizeof second.bytes);
    take_second(page, accepted(result, "rename"));
}

static void take_page_back(Page *page, const Page *log, Pair author)
{
    uint64_t result = kadalumbir_take_back(page->bytes, page->len, log->bytes, log->len, author.node, author.sequence,
                                           second.bytes, sizeof second.bytes);
    take_second(page, accepted(result, "take back"));
}

/* A page of one slot: a new name for the gap, with the line number. */
static void make_line(const Page *book, size_t gap, Pair author, uint32_t line, Page *made)
{
    accepted(kadalumbir_new_name(book->bytes, book->len, gap, author.node, author.sequence, made->bytes,
                                 KADALUMBIR_SLOT_BYTES), "new name");
    made->len = KADALUMBIR_SLOT_BYTES;
    write_u32(made->bytes + LINE_BYTE, line);
}

/* ---- epochs */

static size_t entries_of(const Logger *logger)
{
    return logger->table_len / KADALUMBIR_ENTRY_BYTES;
}

static Pair epoch_at(const Logger *logger, size_t entry)
{
    return read_pair(logger->table + entry * KADALUMBIR_ENTRY_BYTES);
}

static size_t parent_of(const Logger *logger, size_t entry)
{
    return read_u16(logger->table + entry * KADALUMBIR_ENTRY_BYTES + PARENT_BYTE);
}

/* How many names the log of the entry's rename has. */
static uint16_t count_at(const Logger *logger, size_t entry)
{
    return read_u16(logger->table + entry * KADALUMBIR_ENTRY_BYTES + COUNT_BYTE);
}

/* Loggers hear of epochs in different orders, so an epoch's entry is each logger's own affair. */
static size_t entry_of(const Logger *logger, Pair epoch)
{
    size_t entry = 0;
    while (entry < entries_of(logger) && !same_pair(epoch_at(logger, entry), epoch))
        entry++;
    if (entry == entries_of(logger))
        failed("a message came before the rename that made its epoch");
    return entry;
}

/* Gives the index of the entry. */
static size_t add_entry(Logger *logger, size_t parent, Pair author, uint16_t count)
{
    uint8_t table[KADALUMBIR_TABLE_BYTES];
    uint32_t entries = accepted(kadalumbir_add_epoch(logger->table, logger->table_len, parent, author.node,
                                                     author.sequence, count, table, sizeof table), "add epoch");
    logger->table_len = entries * KADALUMBIR_ENTRY_BYTES;
    memcpy(logger->table, table, logger->table_len);
    return entries - 1;
}

/* The log is as it was read from the rename's message, so that all loggers give the epoch the same count. */
static void add_epoch(Logger *logger, size_t parent, Pair author, const Page *log)
{
    size_t entry = add_entry(logger, parent, author, (uint16_t)slots_of(log));
    logger->logs[entry] = *log;
}

/* Brings names over one edge of the epoch tree. A parent has the smaller index. */
static void cross(const Logger *logger, Page *page, size_t from, size_t to)
{
    if (to > from)
        rename_page(page, &logger->logs[to], epoch_at(logger, to));
    else
        take_page_back(page, &logger->logs[from], epoch_at(logger, from));
}

/* The next epoch on the way between two: down, where the first lies above the second, or else up. */
static size_t next_between(const Logger *logger, size_t from, size_t to)
{
    for (size_t entry = to; entry > from; entry = parent_of(logger, entry))
        if (parent_of(logger, entry) == from)
            return entry;
    return parent_of(logger, from);
}

static void translate(const Logger *logger, Page *page, size_t from, size_t to)
{
    translated += from != to;
    while (from != to) {
        size_t next = next_between(logger, from, to);
        cross(logger, page, from, next);
        from = next;
    }
}

static uint8_t next_step(const Logger *logger, size_t current, size_t *next)
{
    uint8_t step;
    uint32_t index;
    accepted(kadalumbir_next_step(logger->table, logger->table_len, current, &step, &index), "next step");
    *next = index;
    return step;
}

/* 001, section 5.2: all loggers choose the same epoch of those that they know. The book goes there edge by edge. */
static void walk_to_target(Logger *logger)
{
    size_t next;
    for (;;) {
        uint8_t step = next_step(logger, logger->current, &next);
        if (step == KADALUMBIR_STAY)
            return;
        taken_back += step == KADALUMBIR_UP;
        cross(logger, &logger->book, logger->current, next);
        logger->current = next;
    }
}

/* ---- messages */

static void read_message(const Message *message, Parts *parts)
{
    uint64_t result = kadalumbir_read_message(message->bytes, message->len, &parts->kind, &parts->epoch.node,
                                              &parts->epoch.sequence, &parts->author.node, &parts->author.sequence,
                                              &parts->line, parts->names.bytes, sizeof parts->names.bytes);
    parts->names.len = accepted(result, "read message") * KADALUMBIR_SLOT_BYTES;
}

static void write_message(const Parts *parts, Message *message)
{
    uint64_t result = kadalumbir_write_message(parts->kind, parts->epoch.node, parts->epoch.sequence,
                                               parts->author.node, parts->author.sequence, parts->line,
                                               parts->names.bytes, parts->names.len, message->bytes,
                                               sizeof message->bytes);
    message->len = accepted(result, "write message");
}

/* Applies a message to the logger's book, whichever epochs the two are in. */
static void apply(Logger *logger, Parts *parts)
{
    size_t from = entry_of(logger, parts->epoch);
    if (parts->kind == KADALUMBIR_RENAME) {
        add_epoch(logger, from, parts->author, &parts->names);
        walk_to_target(logger);
        return;
    }
    translate(logger, &parts->names, from, logger->current);
    write_u32(parts->names.bytes + LINE_BYTE, parts->line);
    if (parts->kind == KADALUMBIR_INSERT)
        insert_slot(&logger->book, parts->names.bytes);
    else
        remove_slot(&logger->book, parts->names.bytes);
}

static void deliver(Logger *logger, const Message *message)
{
    static Parts parts;
    read_message(message, &parts);
    logger->delivered[logger->delivered_count++] = parts.author;
    apply(logger, &parts);
}

/* ---- the queue between the air and a logger: 001, sections 3.1 and 4.2 */

static int is_delivered(const Logger *logger, Pair pair)
{
    for (size_t i = 0; i < logger->delivered_count; i++)
        if (same_pair(logger->delivered[i], pair))
            return 1;
    return 0;
}

/* The last tuple of a name has the pair of the line's insert, or of the rename that gave the name. */
static int are_delivered(const Logger *logger, const Page *names)
{
    for (size_t i = 0; i < slots_of(names); i++)
        if (!is_delivered(logger, last_pair(slot_at(names, i))))
            return 0;
    return 1;
}

/* "operations must now be delivered after the rename operation which introduced their epoch", and a remove after its
 * insert. So that a rename's own names too stand for lines that have come, a rename waits for the lines of its log. */
static int can_go(const Logger *logger, const Message *message)
{
    static Parts parts;
    static const Pair first_epoch = {0, 0};
    read_message(message, &parts);
    return (same_pair(parts.epoch, first_epoch) || is_delivered(logger, parts.epoch)) &&
           (parts.kind == KADALUMBIR_INSERT || are_delivered(logger, &parts.names));
}

/* Delivers what waits, the earliest come first, until nothing that waits can go. */
static void deliver_waiting(Logger *logger)
{
    size_t i = 0;
    while (i < logger->waiting_count) {
        const Message *message = logger->waiting[i];
        if (!can_go(logger, message)) {
            i++;
            continue;
        }
        logger->waiting_count--;
        memmove(&logger->waiting[i], &logger->waiting[i + 1], (logger->waiting_count - i) * sizeof logger->waiting[0]);
        deliver(logger, message);
        i = 0;
    }
}

static Pair author_of(const Message *message)
{
    static Parts parts;
    read_message(message, &parts);
    return parts.author;
}

/* An author's pair stands in one message only: one that is delivered or waits is a repeat. */
static int is_repeat(const Logger *logger, const Message *message)
{
    Pair author = author_of(message);
    for (size_t i = 0; i < logger->waiting_count; i++)
        if (same_pair(author_of(logger->waiting[i]), author))
            return 1;
    return is_delivered(logger, author);
}

static void arrive(Logger *logger, const Message *message)
{
    if (is_repeat(logger, message)) {
        repeats++;
        return;
    }
    waits += !can_go(logger, message);
    logger->waiting[logger->waiting_count++] = message;
    deliver_waiting(logger);
}

/* ---- the air: each message goes to each other logger once or twice, and comes at any time */

static void send_copies(const Logger *from, const Message *message)
{
    for (Logger *to = crew; to < crew + LOGGERS; to++)
        for (uint32_t times = to == from ? 0 : 1 + chance(2); times > 0; times--) {
            Copy copy = {message, to};
            under_way[under_way_count++] = copy;
            copies++;
        }
}

static void hand_over(size_t count)
{
    for (; count > 0; count--) {
        size_t picked = chance((uint32_t)under_way_count);
        Copy copy = under_way[picked];
        under_way[picked] = under_way[--under_way_count];
        arrive(copy.to, copy.message);
    }
}

/* ---- edits */

/* What a logger does itself goes the way of what it hears: its message is applied to its own book. */
static void tell(Logger *logger, const Parts *parts)
{
    Message *message = &written[written_count++];
    write_message(parts, message);
    deliver(logger, message);
    send_copies(logger, message);
}

static void begin(Logger *logger, uint8_t kind, Parts *parts)
{
    parts->kind = kind;
    parts->epoch = epoch_at(logger, logger->current);
    parts->author.node = logger->node;
    parts->author.sequence = ++logger->sequence;
    parts->line = 0;
}

static void insert_somewhere(Logger *logger)
{
    static Parts parts;
    begin(logger, KADALUMBIR_INSERT, &parts);
    size_t gap = chance((uint32_t)slots_of(&logger->book) + 1);
    make_line(&logger->book, gap, parts.author, 0, &parts.names);
    parts.line = logger->node * 100u + ++logger->lines;
    tell(logger, &parts);
}

static void remove_some_line(Logger *logger)
{
    static Parts parts;
    begin(logger, KADALUMBIR_REMOVE, &parts);
    copy_names(slot_at(&logger->book, chance((uint32_t)slots_of(&logger->book))), 1, &parts.names);
    tell(logger, &parts);
}

static void rename_book(Logger *logger)
{
    static Parts parts;
    begin(logger, KADALUMBIR_RENAME, &parts);
    copy_names(logger->book.bytes, slots_of(&logger->book), &parts.names);
    tell(logger, &parts);
}

static void edit(Logger *logger, char what)
{
    if (what == '+')
        insert_somewhere(logger);
    else if (what == '-')
        remove_some_line(logger);
    else
        rename_book(logger);
}

/* ---- printing */

/* position.node.sequence.offset/.. */
static void write_name(const uint8_t *slot, char *text)
{
    const uint8_t *tuple = slot + NAME_BYTE;
    for (int i = 0; i < slot[0]; i++, tuple += KADALUMBIR_TUPLE_BYTES)
        text += sprintf(text, "%s%u.%u.%lu.%ld", i ? "/" : "", (unsigned)read_u16(tuple), (unsigned)read_u16(tuple + 2),
                        (unsigned long)read_u32(tuple + 4), (long)(int32_t)read_u32(tuple + 8));
}

/* A cell begins with a space, so that one without a line leaves nothing after the bar. */
static void write_cell(const Page *page, size_t index, char *text)
{
    if (index >= slots_of(page)) {
        *text = '\0';
        return;
    }
    write_name(slot_at(page, index), text + sprintf(text, " %lu ", (unsigned long)line_of(slot_at(page, index))));
}

static void write_epoch(Pair epoch, char *text)
{
    if (epoch.node == 0)
        strcpy(text, "the first epoch");
    else
        sprintf(text, "epoch %u.%lu", (unsigned)epoch.node, (unsigned long)epoch.sequence);
}

static size_t longest_book(void)
{
    size_t longest = 0;
    for (int i = 0; i < LOGGERS; i++)
        if (slots_of(&crew[i].book) > longest)
            longest = slots_of(&crew[i].book);
    return longest;
}

static size_t widest_cell(const Page *page, size_t least)
{
    char text[NAME_TEXT + 12];
    for (size_t i = 0; i < slots_of(page); i++) {
        write_cell(page, i, text);
        if (strlen(text) > least)
            least = strlen(text);
    }
    return least;
}

static void print_column(int column, size_t width, const char *text)
{
    if (column < LOGGERS - 1)
        printf("%-*s |", (int)width, text);
    else
        printf("%s\n", text);
}

static void print_books(void)
{
    char text[NAME_TEXT + 12], epoch[32];
    size_t width[LOGGERS];
    for (int i = 0; i < LOGGERS; i++) {
        width[i] = widest_cell(&crew[i].book, strlen(" logger 1, epoch 1.10"));
        write_epoch(epoch_at(&crew[i], crew[i].current), epoch);
        sprintf(text, " logger %d, %s", i + 1, epoch);
        print_column(i, width[i], text);
    }
    for (size_t row = 0; row < longest_book(); row++)
        for (int i = 0; i < LOGGERS; i++) {
            write_cell(&crew[i].book, row, text);
            print_column(i, width[i], text);
        }
}

static void print_epochs(const Logger *logger)
{
    char epoch[32], parent[32];
    for (size_t entry = 1; entry < entries_of(logger); entry++) {
        write_epoch(epoch_at(logger, entry), epoch);
        write_epoch(epoch_at(logger, parent_of(logger, entry)), parent);
        printf("  %s is a rename of %s, of %u lines\n", epoch, parent, (unsigned)count_at(logger, entry));
    }
}

/* ---- the crew */

static void start(Logger *logger, uint16_t node)
{
    logger->node = node;
    logger->table_len = KADALUMBIR_ENTRY_BYTES; /* the first epoch, all zero */
}

static void start_crew(void)
{
    for (int i = 0; i < LOGGERS; i++)
        start(&crew[i], (uint16_t)(i + 1));
}

static void edit_apart(void)
{
    for (int round = 0; round < ROUNDS; round++) {
        for (int i = 0; i < LOGGERS; i++)
            edit(&crew[i], plan[round][i]);
        hand_over(under_way_count / 3);
    }
}

static int same_end(const Logger *a, const Logger *b)
{
    return same_page(&a->book, &b->book) && same_pair(epoch_at(a, a->current), epoch_at(b, b->current));
}

static void print_words(void)
{
    puts("Three loggers edit one line book at the same time, each its own copy. A line is a number and a name; the order of the\n"
         "names is the order of the lines. Line 203 is the third that logger 2 wrote. A name is one or more tuples,\n"
         "position.node.sequence.offset, joined by /. A rename gives all lines short names and begins an epoch; of epochs\n"
         "begun at the same time the one of the most lines stays, and the others' renames are taken back. A tuple 0.0.0.0 or\n"
         "65535.65535.4294967295.2147483647 is a marker that keeps a line in its place when that happens.\n");
}

static void print_counts(void)
{
    printf("\nThe three books are alike. %u repeats were dropped; %u times a message waited for an earlier one, %u times its\n"
           "name was translated from another epoch, and %u times a book took a rename back. The epochs, as logger 1 heard of\n"
           "them:\n", repeats, waits, translated, taken_back);
}

static void hold_ends(void)
{
    for (int i = 0; i < LOGGERS; i++)
        if (crew[i].waiting_count != 0 || !same_end(&crew[0], &crew[i]))
            failed("the three loggers do not end alike");
}

static void run_crew(void)
{
    print_words();
    start_crew();
    edit_apart();
    printf("%u messages are written, and %u of their %u copies are still under way:\n\n", (unsigned)written_count,
           (unsigned)under_way_count, copies);
    print_books();
    hand_over(under_way_count);
    puts("\nAll copies have come:\n");
    print_books();
    hold_ends();
    print_counts();
    print_epochs(&crew[0]);
}

/* ---- the spare logger from the drawer */

/* It was put away a month ago with the book's first lines, which it had renamed: that message never went out. */
static void start_spare(void)
{
    start(&spare, SPARE_NODE);
    for (int i = 0; i < SPARE_LINES; i++)
        arrive(&spare, &written[i]);
    rename_book(&spare);
    if (count_at(&spare, spare.current) != SPARE_LINES)
        failed("the spare logger's rename is not of the first lines");
}

static void write_rename(const Logger *logger, size_t entry, char *text)
{
    char epoch[32];
    write_epoch(epoch_at(logger, entry), epoch);
    sprintf(text, "%s, a rename of %u lines", epoch, (unsigned)count_at(logger, entry));
}

static void print_stands(const char *unit, const Logger *logger, size_t stood)
{
    char before[64], now[64];
    write_rename(logger, stood, before);
    write_rename(logger, logger->current, now);
    printf("%-12s | %-32s | %s\n", unit, before, now);
}

/* The way from an epoch to the target. Gives the target. */
static size_t print_way(const Logger *logger, size_t current)
{
    char epoch[32];
    const char *before = "  ";
    size_t next;
    uint8_t step;
    while ((step = next_step(logger, current, &next)) != KADALUMBIR_STAY) {
        write_epoch(epoch_at(logger, next), epoch);
        printf("%s%s to %s", before, step == KADALUMBIR_UP ? "up" : "down", epoch);
        before = ", ";
        current = next;
    }
    puts("");
    return current;
}

/* The same epochs with equal counts, so that node and sequence alone decide. */
static void level_counts(const Logger *logger, Logger *level)
{
    start(level, logger->node);
    for (size_t entry = 1; entry < entries_of(logger); entry++)
        add_entry(level, parent_of(logger, entry), epoch_at(logger, entry), 1);
}

/* Of the epoch that came late and the one on the logger's path that begins where it does. */
static void print_choice(const Logger *logger, size_t late)
{
    static Logger level;
    char spares[64], crews[64], both[32];
    size_t stands = next_between(logger, parent_of(logger, late), logger->current);
    write_rename(logger, late, spares);
    write_rename(logger, stands, crews);
    write_epoch(epoch_at(logger, parent_of(logger, late)), both);
    printf("\nNo book of the crew is renamed back, and the spare logger has the crew's. Both %s, and\n"
           "%s, begin at %s, and the one of more lines stands. By node and sequence alone\n"
           "it would be the spare logger's. Were all renames of as many lines, each of the three would take some back and go\n",
           spares, crews, both);
    level_counts(logger, &level);
    if (count_at(logger, stands) <= count_at(logger, late) || print_way(&level, logger->current) != late)
        failed("it is not the count that decides against the spare logger's rename");
}

/* The crew hears of the spare logger's rename, each logger asks for its next step, and stays. */
static void tell_crew(void)
{
    static Page book;
    Pair epoch = epoch_at(&crew[0], crew[0].current);
    unsigned before = taken_back;
    book = crew[0].book;
    hand_over(under_way_count);
    if (taken_back != before)
        failed("one of the crew takes a rename back for the spare logger's");
    for (int i = 0; i < LOGGERS; i++)
        if (!same_page(&crew[i].book, &book) || !same_pair(epoch_at(&crew[i], crew[i].current), epoch))
            failed("the spare logger's rename moves one of the crew");
}

/* The spare logger hears all that the crew has written; what it had before is dropped as a repeat. */
static void tell_spare(void)
{
    for (size_t i = 0; i < written_count; i++)
        arrive(&spare, &written[i]);
    if (spare.waiting_count != 0 || !same_end(&spare, &crew[0]))
        failed("the spare logger does not end as the crew");
}

static void run_spare(void)
{
    size_t stood[LOGGERS], spare_stood;
    char unit[32];
    start_spare();
    spare_stood = spare.current;
    for (int i = 0; i < LOGGERS; i++)
        stood[i] = crew[i].current;
    tell_crew();
    tell_spare();

    printf("\nA spare logger comes back from the drawer after a month. Its node number is high, %d, and when the book had %d\n"
           "lines it renamed it, which nobody has heard of. Now the crew hears of that, and the spare logger of all that the\n"
           "crew has done since:\n\n", SPARE_NODE, SPARE_LINES);
    printf("%-12s | %-32s | stands at\n", "unit", "stood at");
    for (int i = 0; i < LOGGERS; i++) {
        sprintf(unit, "logger %d", i + 1);
        print_stands(unit, &crew[i], stood[i]);
    }
    print_stands("spare logger", &spare, spare_stood);
    print_choice(&crew[0], entry_of(&crew[0], epoch_at(&spare, spare_stood)));
}

/* ---- which gain applies */

/* The text of a line is kept beside the book, by line number: its gain, or 0 for a reading. */
enum { LAST_LINE = 7, LAST_LOGGED = 5, ADDED_LINE = 7 }; /* added when the rename has come */
static const int gains[LAST_LINE + 1] = {0, 4, 0, 0, 10, 0, 0, 0};

/* The slot of a line, or the number of slots where the book does not have it. */
static size_t place_of(const Page *book, uint32_t line)
{
    size_t index = 0;
    while (index < slots_of(book) && line_of(slot_at(book, index)) != line)
        index++;
    return index;
}

/* The gain that applies at a slot is that of the nearest gain line before it. */
static int gain_at(const Page *book, size_t index)
{
    while (index > 0)
        if (gains[line_of(slot_at(book, --index))] != 0)
            return gains[line_of(slot_at(book, index))];
    return 0;
}

static void add_line(Page *book, size_t gap, uint32_t line)
{
    static Page made;
    Pair author = {1, line};
    make_line(book, gap, author, line, &made);
    insert_slot(book, made.bytes);
}

/* One line in one state of the book: its name, and the gain where it is a reading. */
static void write_state(const Page *book, uint32_t line, char *text)
{
    char name[NAME_TEXT], gain[16] = "";
    size_t index = place_of(book, line);
    *text = '\0';
    if (index == slots_of(book))
        return;
    if (gains[line] == 0)
        sprintf(gain, "%d", gain_at(book, index));
    write_name(slot_at(book, index), name);
    sprintf(text, "%4s %s", gain, name);
}

static void print_line(uint32_t line, const Page *before, const Page *renamed, const Page *back)
{
    char kind[16] = "reading", text[3][NAME_TEXT + 16];
    if (gains[line] != 0)
        sprintf(kind, "gain %d", gains[line]);
    write_state(before, line, text[0]);
    write_state(renamed, line, text[1]);
    write_state(back, line, text[2]);
    printf("%lu %-7s | %-16s | %-16s | %s\n", (unsigned long)line, kind, text[0], text[1], text[2]);
}

static int same_gain(const Page *a, const Page *b, uint32_t line)
{
    return gain_at(a, place_of(a, line)) == gain_at(b, place_of(b, line));
}

static int same_slot(const Page *a, const Page *b, uint32_t line)
{
    return memcmp(slot_at(a, place_of(a, line)), slot_at(b, place_of(b, line)), KADALUMBIR_SLOT_BYTES) == 0;
}

static void hold_gains(const Page *before, const Page *renamed, const Page *back)
{
    for (uint32_t line = 1; line <= LAST_LINE; line++)
        if ((line != ADDED_LINE && !same_gain(before, renamed, line)) || !same_gain(renamed, back, line))
            failed("another gain applies to a reading");
}

static void hold_names(const Page *before, const Page *back)
{
    for (uint32_t line = 1; line <= LAST_LINE; line++)
        if (line != ADDED_LINE && !same_slot(before, back, line))
            failed("a line does not get its name back");
}

static void print_gains(const Page *before, const Page *renamed, const Page *back)
{
    puts("\nWhich gain applies to a reading? That of the nearest gain line before it. Logger 2 renames lines 1 to 5; line 6 is\n"
         "added while that is under way, and line 7, when it has come, after line 5, the last logged one. Then the rename is\n"
         "taken back. Line 7 gets a name that keeps it there: its old one would put it before line 2, where gain 4 applies.\n");
    printf("%-9s | %-16s | %-16s | %s\n", "line", "gain name before", "gain renamed", "gain taken back");
    for (size_t i = 0; i < slots_of(back); i++)
        print_line(line_of(slot_at(back, i)), before, renamed, back);
}

static void run_gains(void)
{
    static Page before, renamed, back, log;
    static const Pair author = {2, 1};
    for (uint32_t line = 1; line <= LAST_LOGGED; line++)
        add_line(&before, slots_of(&before), line);
    copy_names(before.bytes, slots_of(&before), &log);
    add_line(&before, slots_of(&before), 6);
    renamed = before;
    rename_page(&renamed, &log, author);
    add_line(&renamed, place_of(&renamed, LAST_LOGGED) + 1, ADDED_LINE);
    back = renamed;
    take_page_back(&back, &log, author);

    print_gains(&before, &renamed, &back);
    hold_gains(&before, &renamed, &back);
    hold_names(&before, &back);
    puts("\nThe gain that applies to each reading is the same throughout, and lines 1 to 6 have their names again.");
}

/* ---- a unit that has old pages */

static unsigned deepest_of(const Page *page)
{
    unsigned deepest = 0;
    for (size_t i = 0; i < slots_of(page); i++)
        if (slot_at(page, i)[0] > deepest)
            deepest = slot_at(page, i)[0];
    return deepest;
}

/* The book goes to the unit and comes back, unless a name is too deep for an old page. */
static void hand_to_unit(const char *state, const Page *book)
{
    static uint8_t old[KADALUMBIR_OLD_PAGE_BYTES];
    static Page back;
    uint64_t result = kadalumbir_to_old(book->bytes, book->len, old, sizeof old);
    printf("%-20s | %5u | %7u | ", state, (unsigned)slots_of(book), deepest_of(book));
    if (kadalumbir_answer_of(result) == KADALUMBIR_TOO_DEEP) {
        printf("refused with %d\n", KADALUMBIR_TOO_DEEP);
        return;
    }
    size_t old_len = accepted(result, "to old") * KADALUMBIR_OLD_SLOT_BYTES;
    result = kadalumbir_from_old(old, old_len, second.bytes, sizeof second.bytes);
    take_second(&back, accepted(result, "from old"));
    if (!same_page(&back, book))
        failed("a book does not come back from an old page as it was");
    printf("%u bytes, and back as it was\n", (unsigned)old_len);
}

/* Lines one after the other, in a gap between two that a rename named: each name is one tuple deeper than the last. */
static void write_row(Logger *logger, size_t gap, unsigned lines)
{
    for (unsigned i = 0; i < lines; i++)
        add_line(&logger->book, gap + i, logger->node * 100u + ++logger->lines);
}

static void run_old_pages(void)
{
    static Page log;
    Logger *logger = &crew[0];
    puts("\nAn old unit joins. It still has old pages, whose names are of at most eight tuples: a book goes to it and comes back\n"
         "exactly when its names fit. A rename of all lines makes them fit.\n");
    printf("%-20s | lines | deepest | as an old page\n", "the book");
    hand_to_unit("as all three have it", &logger->book);
    write_row(logger, 1, KADALUMBIR_OLD_TUPLES);
    hand_to_unit("with a row of lines", &logger->book);
    copy_names(logger->book.bytes, slots_of(&logger->book), &log);
    Pair author = {logger->node, ++logger->sequence};
    rename_page(&logger->book, &log, author);
    hand_to_unit("renamed", &logger->book);
}

int main(void)
{
    run_crew();
    run_spare();
    run_gains();
    run_old_pages();
    return 0;
}
