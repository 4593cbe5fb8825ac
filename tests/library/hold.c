/* For MAP_ANONYMOUS, which is not in C99. */
#define _DEFAULT_SOURCE

#include "hold.h"

#include <inttypes.h>
#include <signal.h>
#include <stdio.h>
#include <stdlib.h>
#include <string.h>
#include <sys/mman.h>

#include "../../include/kadalumbir.h"
#include "../reference/chance.h"
#include "../reference/edits.h"
#include "../reference/renames.h"

/* The sizes that the header says are those of the plain C: where one is not, this does not compile. */
#define SAME(said, must) typedef char said##_is_##must[(said) == (must) ? 1 : -1]

SAME(KADALUMBIR_TUPLE_BYTES, TUPLE_BYTES);
SAME(KADALUMBIR_TUPLES, DEPTH_LIMIT);
SAME(KADALUMBIR_SLOT_BYTES, SLOT_BYTES);
SAME(KADALUMBIR_SLOTS, SLOT_LIMIT);
SAME(KADALUMBIR_PAGE_BYTES, PAGE_BYTES);
SAME(KADALUMBIR_OLD_TUPLES, OLD_DEPTH_LIMIT);
SAME(KADALUMBIR_OLD_SLOT_BYTES, OLD_SLOT_BYTES);
SAME(KADALUMBIR_OLD_PAGE_BYTES, OLD_PAGE_BYTES);
SAME(KADALUMBIR_ENTRY_BYTES, ENTRY_BYTES);
SAME(KADALUMBIR_ENTRIES, ENTRY_LIMIT);
SAME(KADALUMBIR_TABLE_BYTES, TABLE_BYTES);
SAME(KADALUMBIR_MESSAGE_BYTES, LONGEST_MESSAGE);
SAME(KADALUMBIR_FORM_BYTES, LONGEST_FORM);

/* ---- the calls, what was met of them, and what differed */

typedef enum {
    CHECK_PAGE,
    CHECK_LOG,
    CHECK_EPOCHS,
    INSERT_SLOT,
    REMOVE_SLOT,
    NEW_NAME,
    RENAME_PAGE,
    TAKE_BACK,
    FROM_OLD,
    TO_OLD,
    NEXT_STEP,
    ADD_EPOCH,
    WRITE_MESSAGE,
    READ_MESSAGE,
    GROUP_PAGE,
    UNGROUP_FORM,
    GROUP_INSERT,
    GROUP_REMOVE,
    CALLS
} Call;

enum { ANSWERS = 19, DIFFERENCES_TOLD = 10 };

/* Of each call the answers that 01 and 02 have for it, ended by -1: "Order" of "What comes back", "Refusals of a conversion"
 * and those of grouping. The 13 of adding and the 11 of an insert into a form stand here once, and among the ways twice. */
static const struct {
    const char *name;
    int answers[10];
} calls[CALLS] = {
    [CHECK_PAGE] = {"check_page", {0, 1, 2, -1}},
    [CHECK_LOG] = {"check_log", {0, 3, -1}},
    [CHECK_EPOCHS] = {"check_epochs", {0, 13, -1}},
    [INSERT_SLOT] = {"insert", {0, 1, 2, 9, 11, 8, -1}},
    [REMOVE_SLOT] = {"remove", {0, 1, 2, 10, 8, -1}},
    [NEW_NAME] = {"new_name", {0, 1, 2, 4, 16, 12, 6, 8, -1}},
    [RENAME_PAGE] = {"rename", {0, 1, 2, 3, 4, 5, 6, 8, -1}},
    [TAKE_BACK] = {"take_back", {0, 1, 2, 3, 4, 6, 7, 8, -1}},
    [FROM_OLD] = {"from_old", {0, 1, 2, 8, -1}},
    [TO_OLD] = {"to_old", {0, 1, 2, 6, 8, -1}},
    [NEXT_STEP] = {"next_step", {0, 13, 14, -1}},
    [ADD_EPOCH] = {"add_epoch", {0, 13, 14, 4, 17, 18, 8, -1}},
    [WRITE_MESSAGE] = {"write_message", {0, 15, 8, -1}},
    [READ_MESSAGE] = {"read_message", {0, 15, 8, -1}},
    [GROUP_PAGE] = {"group", {0, 1, 2, 8, -1}},
    [UNGROUP_FORM] = {"ungroup", {0, 15, 2, 11, 8, -1}},
    [GROUP_INSERT] = {"group_insert", {0, 15, 2, 11, 1, 9, 8, -1}},
    [GROUP_REMOVE] = {"group_remove", {0, 15, 2, 11, 1, 10, 8, -1}},
};

static size_t met[CALLS][ANSWERS], held, differences;

/* The call of this case. */
static Call call;

size_t cases_held(void)
{
    return held;
}

size_t differences_found(void)
{
    return differences;
}

static void differs(const char *what, uint64_t is, uint64_t must)
{
    if (differences++ < DIFFERENCES_TOLD)
        printf("case %zu, %s: %s is %" PRIu64 " and must be %" PRIu64 "\n", held, calls[call].name, what, is, must);
}

void hold_number(const char *what, uint64_t is, uint64_t must)
{
    if (is != must)
        differs(what, is, must);
}

/* Ends the driver where a byte is reached that was not lent. */
static void tell_fault(int signal_number)
{
    (void)signal_number;
    printf("case %zu, %s: a byte is reached that was not lent\n", held, calls[call].name);
    fflush(stdout);
    _Exit(EXIT_FAILURE);
}

/* ---- what the library is lent: bytes that end where memory ends, so that one byte too far is a fault */

enum { FRONT = 64 /* bytes before an output that must stay, too */ };

typedef struct {
    uint8_t *end;
    uint8_t *bytes; /* what is lent now; a null pointer now and then where the length is 0 */
    size_t length;
    const Bytes *given; /* of an input, what must stay there */
} Lent;

static Lent first, second, output;

/* What the plain C works on: the same canaries, FRONT bytes before the output. */
static uint8_t must_bytes[FRONT + MOST_ROOM];

static void make_memory(Lent *lent)
{
    enum { MEMORY_PAGE = 4096, SIZE = (FRONT + MOST_BYTES + MEMORY_PAGE - 1) / MEMORY_PAGE * MEMORY_PAGE };
    uint8_t *start = mmap(NULL, SIZE + MEMORY_PAGE, PROT_READ | PROT_WRITE, MAP_PRIVATE | MAP_ANONYMOUS, -1, 0);
    if (start == MAP_FAILED || mprotect(start + SIZE, MEMORY_PAGE, PROT_NONE) != 0) {
        perror("memory");
        exit(EXIT_FAILURE);
    }
    signal(SIGSEGV, tell_fault);
    lent->end = start + SIZE;
}

static void lend(Lent *lent, size_t length)
{
    if (lent->end == NULL)
        make_memory(lent);
    lent->length = length;
    lent->bytes = length == 0 && random_below(2) == 0 ? NULL : lent->end - length;
}

static void lend_input(Lent *lent, const Bytes *input)
{
    lend(lent, input->length);
    lent->given = input;
    memcpy(lent->end - input->length, input->bytes, input->length);
}

/* What the bytes of an output are before a call, FRONT bytes before it among them: a part of a row of these, which comes again
 * after CANARIES bytes. */
enum { CANARIES = 256 };

static uint8_t canaries[CANARIES + FRONT + MOST_ROOM];
static const uint8_t *before;

static void make_canaries(void)
{
    for (size_t i = 0; i < sizeof canaries; i++)
        canaries[i] = (uint8_t)(7 * i);
}

static void lend_output(size_t room)
{
    if (before == NULL)
        make_canaries();
    before = canaries + random_below(CANARIES);
    lend(&output, room);
    memcpy(output.end - room - FRONT, before, FRONT + room);
    memcpy(must_bytes, before, FRONT + room);
}

/* Begins a case: its call, one or two inputs, and the room of its output. */
static void begin(Call begun, const Bytes *a, const Bytes *b, size_t room)
{
    static const Bytes nothing;
    call = begun;
    lend_input(&first, a);
    lend_input(&second, b != NULL ? b : &nothing);
    lend_output(room);
}

static void hold_input(const Lent *lent)
{
    if (memcmp(lent->end - lent->length, lent->given->bytes, lent->length) != 0)
        differs("whether an input changed", 1, 0);
}

static void hold_output(void)
{
    const uint8_t *is = output.end - output.length - FRONT;
    if (memcmp(is, must_bytes, FRONT + output.length) == 0)
        return;
    size_t i = 0;
    while (is[i] == must_bytes[i])
        i++;
    char what[64];
    snprintf(what, sizeof what, "byte %d of the output", (int)i - FRONT);
    differs(what, is[i], must_bytes[i]);
}

void take_output(Bytes *taken, size_t length)
{
    taken->length = length;
    memcpy(taken->bytes, output.end - output.length, length);
}

size_t changed_after(size_t length)
{
    size_t changed = 0;
    for (size_t i = length; i < output.length; i++)
        if (output.end[i - output.length] != before[FRONT + i])
            changed++;
    return changed;
}

/* ---- ways */

enum {
    LONG_LOG = 16 * SLOT_BYTES, /* longer ones are */
    MOST_WAYS = 16
};

/* What has several ways to come to what it gives: the rows of the table of "Renaming one name"; the bullets of "Taking it back"
 * with their cases; the reasons of a table's 13; the three steps; by what the target is above an epoch; walks that
 * stay, go down, and go up first; the two 13 of adding; of a message the kinds that are accepted and the reasons of 15; of a
 * form the reasons of 15, the two 11 of an insert, and what becomes of the groups. */
typedef enum {
    BY_RENAME,
    BY_LONG_RENAME,
    BY_TAKING_BACK,
    BY_LONG_TAKING_BACK,
    BY_CHECK,
    BY_STEP,
    BY_TARGET,
    BY_WALK,
    BY_ADDING,
    BY_WRITING,
    BY_READING,
    BY_UNGROUPING,
    BY_WRONG_INSERT,
    BY_WRONG_REMOVE,
    BY_FULL_INSERT,
    BY_GROUP_INSERT,
    BY_GROUP_REMOVE,
    HAVE_WAYS
} HasWays;

static const struct {
    const char *name;
    size_t ways;
    size_t rarer; /* by how much fewer times are enough than of the others */
} have_ways[HAVE_WAYS] = {
    [BY_RENAME] = {"rename", 6, 1},
    [BY_LONG_RENAME] = {"rename, a long log", 6, 10},
    [BY_TAKING_BACK] = {"take_back", 12, 1},
    [BY_LONG_TAKING_BACK] = {"take_back, a long log", 12, 10},
    [BY_CHECK] = {"check_epochs", 8, 1},
    [BY_STEP] = {"next_step", 3, 1},
    [BY_TARGET] = {"next_step, the target above an epoch by", 7, 1},
    [BY_WALK] = {"walk", 3, 1},
    [BY_ADDING] = {"add_epoch, 13 by", 2, 1},
    [BY_WRITING] = {"write_message", 13, 1},
    [BY_READING] = {"read_message", 16, 1},
    [BY_UNGROUPING] = {"ungroup, 15 by", 10, 1},
    [BY_WRONG_INSERT] = {"group_insert, 15 by", 10, 1},
    [BY_WRONG_REMOVE] = {"group_remove, 15 by", 10, 1},
    [BY_FULL_INSERT] = {"group_insert, 11 by", 2, 1},
    [BY_GROUP_INSERT] = {"group_insert", 5, 1},
    [BY_GROUP_REMOVE] = {"group_remove", 5, 1},
};

static struct {
    const char *words;
    size_t times;
} ways[HAVE_WAYS][MOST_WAYS];

static void count_way(HasWays of, const char *words)
{
    size_t i = 0;
    while (i < have_ways[of].ways && ways[of][i].words != NULL && strcmp(ways[of][i].words, words) != 0)
        i++;
    if (i == have_ways[of].ways) {
        printf("a way that 01 and 02 do not have: %s, %s\n", have_ways[of].name, words);
        exit(EXIT_FAILURE);
    }
    ways[of][i].words = words;
    ways[of][i].times++;
}

/* ---- calls */

/* Ends a case. */
static Outcome hold(uint64_t is, Outcome must)
{
    hold_input(&first);
    hold_input(&second);
    hold_output();
    hold_number("the answer", kadalumbir_answer_of(is), (uint64_t)must.answer);
    hold_number("the count", kadalumbir_count_of(is), must.count);
    met[call][must.answer]++;
    held++;
    return must;
}

/* Of a check: "accepted; with the count of slots, entries" that stand there. */
static Outcome checked(int answer, const Bytes *input, size_t piece)
{
    Outcome outcome = {answer, answer == ACCEPTED ? input->length / piece : 0};
    return outcome;
}

Outcome hold_check_page(const Bytes *page)
{
    begin(CHECK_PAGE, page, NULL, 0);
    uint64_t is = kadalumbir_check_page(first.bytes, first.length);
    return hold(is, checked(check_page(page->bytes, page->length), page, SLOT_BYTES));
}

Outcome hold_check_log(const Bytes *log)
{
    begin(CHECK_LOG, log, NULL, 0);
    uint64_t is = kadalumbir_check_log(first.bytes, first.length);
    return hold(is, checked(check_log(log->bytes, log->length), log, SLOT_BYTES));
}

Outcome hold_check_epochs(const Bytes *table)
{
    begin(CHECK_EPOCHS, table, NULL, 0);
    uint64_t is = kadalumbir_check_epochs(first.bytes, first.length);
    Outcome must = checked(check_table(table->bytes, table->length), table, ENTRY_BYTES);
    if (must.answer == TABLE_LAYOUT)
        count_way(BY_CHECK, wrong_with_table(table->bytes, table->length));
    return hold(is, must);
}

Outcome hold_insert(const Bytes *page, const Bytes *slot, size_t room)
{
    begin(INSERT_SLOT, page, slot, room);
    uint64_t is = kadalumbir_insert(first.bytes, first.length, second.bytes, second.length, output.bytes, room);
    Outcome must = insert_slot(page->bytes, page->length, slot->bytes, slot->length, must_bytes + FRONT, room);
    return hold(is, must);
}

Outcome hold_remove(const Bytes *page, const Bytes *slot, size_t room)
{
    begin(REMOVE_SLOT, page, slot, room);
    uint64_t is = kadalumbir_remove(first.bytes, first.length, second.bytes, second.length, output.bytes, room);
    Outcome must = remove_slot(page->bytes, page->length, slot->bytes, slot->length, must_bytes + FRONT, room);
    return hold(is, must);
}

/* "0 for a new name": the name is written as one slot with line number 0, and 8 is asked last. */
static Outcome name_written(int answer, const Name *name, size_t room)
{
    if (answer == ACCEPTED && room < SLOT_BYTES)
        answer = OUTPUT_SHORT;
    if (answer == ACCEPTED) {
        Slot slot = {0, *name};
        write_slot(must_bytes + FRONT, &slot);
    }
    return refused(answer);
}

Outcome hold_new_name(const Bytes *page, size_t gap, uint16_t node, uint32_t sequence, size_t room)
{
    begin(NEW_NAME, page, NULL, room);
    uint64_t is = kadalumbir_new_name(first.bytes, first.length, gap, node, sequence, output.bytes, room);
    Name name;
    Outcome must = name_written(new_name(page->bytes, page->length, gap, node, sequence, &name), &name, room);
    return hold(is, must);
}

/* Of an accepted call. A long page is left out: it has no way of its own. */
static void count_renamed(HasWays of, const Bytes *page, const Bytes *log, uint16_t node, uint32_t sequence,
                          Renamed (*change)(const Renaming *renaming, const Name *name))
{
    static Page slots;
    static Renaming renaming;
    if (page->length > LONG_LOG)
        return;
    read_page(page->bytes, page->length, &slots);
    read_page(log->bytes, log->length, &renaming.log);
    renaming.node = node;
    renaming.sequence = sequence;
    for (size_t i = 0; i < slots.count; i++)
        count_way(of, change(&renaming, &slots.slots[i].name).by);
}

Outcome hold_rename(const Bytes *page, const Bytes *log, uint16_t node, uint32_t sequence, size_t room)
{
    begin(RENAME_PAGE, page, log, room);
    uint64_t is = kadalumbir_rename(first.bytes, first.length, second.bytes, second.length, node, sequence,
                                    output.bytes, room);
    Outcome must = rename_page(page->bytes, page->length, log->bytes, log->length, node, sequence, must_bytes + FRONT,
                               room);
    if (must.answer == ACCEPTED)
        count_renamed(log->length <= LONG_LOG ? BY_RENAME : BY_LONG_RENAME, page, log, node, sequence, rename_name);
    return hold(is, must);
}

Outcome hold_take_back(const Bytes *page, const Bytes *log, uint16_t node, uint32_t sequence, size_t room)
{
    begin(TAKE_BACK, page, log, room);
    uint64_t is = kadalumbir_take_back(first.bytes, first.length, second.bytes, second.length, node, sequence,
                                       output.bytes, room);
    Outcome must = take_page_back(page->bytes, page->length, log->bytes, log->length, node, sequence,
                                  must_bytes + FRONT, room);
    if (must.answer == ACCEPTED)
        count_renamed(log->length <= LONG_LOG ? BY_TAKING_BACK : BY_LONG_TAKING_BACK, page, log, node, sequence,
                      take_name_back);
    return hold(is, must);
}

Outcome hold_from_old(const Bytes *old, size_t room)
{
    begin(FROM_OLD, old, NULL, room);
    uint64_t is = kadalumbir_from_old(first.bytes, first.length, output.bytes, room);
    return hold(is, from_old(old->bytes, old->length, must_bytes + FRONT, room));
}

Outcome hold_to_old(const Bytes *page, size_t room)
{
    begin(TO_OLD, page, NULL, room);
    uint64_t is = kadalumbir_to_old(first.bytes, first.length, output.bytes, room);
    return hold(is, to_old(page->bytes, page->length, must_bytes + FRONT, room));
}

/* "The names and line numbers are equal both ways", and so is every byte; of a form, "Both round trips give the same bytes".
 * What is converted has as many pieces as the count says, of so many bytes each. */
static Outcome hold_there_and_back(const Bytes *page, size_t piece, Outcome (*there)(const Bytes *page, size_t room),
                                   Outcome (*back)(const Bytes *page, size_t room))
{
    static Bytes converted;
    Outcome outcome = there(page, MOST_ROOM);
    if (outcome.answer != ACCEPTED)
        return outcome;
    take_output(&converted, outcome.count * piece);
    back(&converted, page->length);
    bool same = memcmp(output.end - output.length, page->bytes, page->length) == 0;
    hold_number("whether the same bytes came back", same, 1);
    return outcome;
}

Outcome hold_old_and_back(const Bytes *page)
{
    return hold_there_and_back(page, OLD_SLOT_BYTES, hold_to_old, hold_from_old);
}

Outcome hold_new_and_back(const Bytes *old)
{
    return hold_there_and_back(old, SLOT_BYTES, hold_from_old, hold_to_old);
}

/* Of an accepted step. */
static void count_step(const Bytes *table, size_t current, int step)
{
    Table entries;
    read_table(table->bytes, table->length, &entries);
    count_way(BY_STEP, step == STAY ? "stay" : step == UP ? "up" : "down");
    if (step != STAY)
        count_way(BY_TARGET, above_by(&entries, current));
}

Outcome hold_next_step(const Bytes *table, size_t current, uint8_t *step, uint32_t *index)
{
    begin(NEXT_STEP, table, NULL, 0);
    *step = (uint8_t)random_word();
    *index = (uint32_t)random_word();
    uint64_t is = kadalumbir_next_step(first.bytes, first.length, current, step, index);
    NextStep next = next_step(table->bytes, table->length, current);
    hold_number("the step", *step, (uint64_t)next.step);
    hold_number("the index", *index, next.index);
    if (next.answer == ACCEPTED)
        count_step(table, current, next.step);
    return hold(is, refused(next.answer));
}

/* "a proper prefix is smaller": the target has no child, so that no walk goes up alone. */
static const char *words_of(const Path *way, size_t from)
{
    if (way->count == 0)
        return "stay";
    return way->indices[0] < from ? "up and down" : "down";
}

int hold_walk(const Bytes *table, size_t current, Path *walked)
{
    uint8_t step;
    uint32_t index;
    int answer = hold_next_step(table, current, &step, &index).answer;
    walked->count = 0;
    if (answer != ACCEPTED)
        return answer;
    while (step != STAY && walked->count < ENTRY_LIMIT) {
        walked->indices[walked->count++] = index;
        hold_next_step(table, index, &step, &index);
    }
    Table entries;
    read_table(table->bytes, table->length, &entries);
    Path way = way_to_target(&entries, current);
    hold_number("the number of steps", walked->count, way.count);
    for (size_t i = 0; i < way.count && i < walked->count; i++)
        hold_number("an index of the walk", walked->indices[i], way.indices[i]);
    count_way(BY_WALK, words_of(&way, current));
    return answer;
}

Outcome hold_add_epoch(const Bytes *table, size_t parent, uint16_t node, uint32_t sequence, uint16_t count, size_t room)
{
    begin(ADD_EPOCH, table, NULL, room);
    uint64_t is = kadalumbir_add_epoch(first.bytes, first.length, parent, node, sequence, count, output.bytes, room);
    Outcome must = add_epoch(table->bytes, table->length, parent, node, sequence, count, must_bytes + FRONT, room);
    if (must.answer == TABLE_LAYOUT)
        count_way(BY_ADDING, check_table(table->bytes, table->length) == ACCEPTED ? "the given count" : "the table");
    return hold(is, must);
}

static const char *const kinds[] = {[INSERT] = "insert", [REMOVE] = "remove", [RENAME] = "rename"};

Outcome hold_write_message(const Numbers *numbers, const Bytes *names, size_t room)
{
    begin(WRITE_MESSAGE, names, NULL, room);
    uint64_t is = kadalumbir_write_message(numbers->kind, numbers->epoch.node, numbers->epoch.sequence,
                                           numbers->author.node, numbers->author.sequence, numbers->line, first.bytes,
                                           first.length, output.bytes, room);
    Outcome must = write_message(numbers, names->bytes, names->length, must_bytes + FRONT, room);
    if (must.answer == MALFORMED)
        count_way(BY_WRITING, wrong_with_parts(numbers, names->bytes, names->length));
    if (must.answer == ACCEPTED)
        count_way(BY_WRITING, kinds[numbers->kind]);
    return hold(is, must);
}

Outcome hold_read_message(const Bytes *message, Numbers *numbers, size_t room)
{
    begin(READ_MESSAGE, message, NULL, room);
    memset(numbers, (int)random_below(256), sizeof *numbers);
    uint64_t is = kadalumbir_read_message(first.bytes, first.length, &numbers->kind, &numbers->epoch.node,
                                          &numbers->epoch.sequence, &numbers->author.node, &numbers->author.sequence,
                                          &numbers->line, output.bytes, room);
    Numbers said;
    Outcome must = read_message(message->bytes, message->length, &said, must_bytes + FRONT, room);
    hold_number("the kind", numbers->kind, said.kind);
    hold_number("the epoch's node", numbers->epoch.node, said.epoch.node);
    hold_number("the epoch's sequence", numbers->epoch.sequence, said.epoch.sequence);
    hold_number("the author's node", numbers->author.node, said.author.node);
    hold_number("the author's sequence", numbers->author.sequence, said.author.sequence);
    hold_number("the line number", numbers->line, said.line);
    if (must.answer == MALFORMED)
        count_way(BY_READING, wrong_with_message(message->bytes, message->length));
    if (must.answer == ACCEPTED)
        count_way(BY_READING, kinds[said.kind]);
    return hold(is, must);
}

Outcome hold_group(const Bytes *page, size_t room)
{
    begin(GROUP_PAGE, page, NULL, room);
    uint64_t is = kadalumbir_group(first.bytes, first.length, output.bytes, room);
    return hold(is, group_page(page->bytes, page->length, must_bytes + FRONT, room));
}

static void count_wrong_form(HasWays of, const Bytes *form, Outcome outcome)
{
    if (outcome.answer == MALFORMED)
        count_way(of, wrong_with_form(form->bytes, form->length));
}

Outcome hold_ungroup(const Bytes *form, size_t room)
{
    begin(UNGROUP_FORM, form, NULL, room);
    uint64_t is = kadalumbir_ungroup(first.bytes, first.length, output.bytes, room);
    Outcome must = ungroup_form(form->bytes, form->length, must_bytes + FRONT, room);
    count_wrong_form(BY_UNGROUPING, form, must);
    return hold(is, must);
}

Outcome hold_group_insert(const Bytes *form, const Bytes *slot, size_t room)
{
    begin(GROUP_INSERT, form, slot, room);
    uint64_t is = kadalumbir_group_insert(first.bytes, first.length, second.bytes, second.length, output.bytes, room);
    Outcome must = insert_grouped(form->bytes, form->length, slot->bytes, slot->length, must_bytes + FRONT, room);
    count_wrong_form(BY_WRONG_INSERT, form, must);
    if (must.answer == PAGE_FULL)
        count_way(BY_FULL_INSERT, check_form(form->bytes, form->length) == ACCEPTED ? "256 slots" : "more than 256");
    if (must.answer == ACCEPTED)
        count_way(BY_GROUP_INSERT, way_of_insert(form->bytes, form->length, slot->bytes));
    return hold(is, must);
}

Outcome hold_group_remove(const Bytes *form, const Bytes *slot, size_t room)
{
    begin(GROUP_REMOVE, form, slot, room);
    uint64_t is = kadalumbir_group_remove(first.bytes, first.length, second.bytes, second.length, output.bytes, room);
    Outcome must = remove_grouped(form->bytes, form->length, slot->bytes, slot->length, must_bytes + FRONT, room);
    count_wrong_form(BY_WRONG_REMOVE, form, must);
    if (must.answer == ACCEPTED)
        count_way(BY_GROUP_REMOVE, way_of_remove(form->bytes, form->length, slot->bytes));
    return hold(is, must);
}

Outcome hold_group_and_back(const Bytes *page)
{
    return hold_there_and_back(page, 1, hold_group, hold_ungroup);
}

Outcome hold_ungroup_and_back(const Bytes *form)
{
    return hold_there_and_back(form, SLOT_BYTES, hold_ungroup, hold_group);
}

static void hold_written(const char *what, const Bytes *must, size_t length)
{
    bool same = length == must->length && memcmp(output.end - output.length, must->bytes, length) == 0;
    hold_number(what, same, 1);
}

void hold_alike(const Bytes *page, const Bytes *form)
{
    Outcome grouped = hold_group(page, MOST_ROOM);
    hold_written("whether the page's form is the form", form, grouped.count);
    Outcome ungrouped = hold_ungroup(form, MOST_ROOM);
    hold_written("whether the form's page is the page", page, ungrouped.count * SLOT_BYTES);
}

/* ---- what was met */

static bool tell_call(Call of, size_t least)
{
    bool enough = true;
    printf("  %s", calls[of].name);
    for (const int *answer = calls[of].answers; *answer >= 0; answer++) {
        size_t times = met[of][*answer];
        printf("%s %d: %zu%s", answer == calls[of].answers ? "" : ",", *answer, times, times < least ? " TOO FEW" : "");
        enough = enough && times >= least;
    }
    printf("\n");
    return enough;
}

static bool tell_ways(HasWays of, size_t least)
{
    bool enough = true;
    least /= have_ways[of].rarer;
    printf("  %s\n", have_ways[of].name);
    for (size_t i = 0; i < have_ways[of].ways; i++) {
        const char *words = ways[of][i].words;
        size_t times = ways[of][i].times;
        printf("    %s: %zu%s\n", words != NULL ? words : "none", times, times < least ? " TOO FEW" : "");
        enough = enough && times >= least;
    }
    return enough;
}

bool tell_what_was_met(size_t least)
{
    bool enough = true;
    printf("%zu cases, %zu differences; how often each answer was met:\n", held, differences);
    for (int of = 0; of < CALLS; of++)
        enough = tell_call((Call)of, least) && enough;
    printf("how often a call came to what it gives in each way:\n");
    for (int of = 0; of < HAVE_WAYS; of++)
        enough = tell_ways((HasWays)of, least) && enough;
    if (!enough)
        printf("an answer or a way was met fewer than %zu times\n", least);
    return enough && differences == 0;
}
