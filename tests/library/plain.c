/* The calls of the header made of the plain C itself: what the driver is run with where the library cannot be. */
#include "../../include/kadalumbir.h"
#include "../reference/edits.h"
#include "../reference/epochs.h"
#include "../reference/groups.h"
#include "../reference/messages.h"
#include "../reference/old_pages.h"
#include "../reference/renames.h"

static uint64_t packed(Outcome outcome)
{
    return ((uint64_t)outcome.answer << 32) + outcome.count;
}

static uint64_t checked(int answer, size_t count)
{
    Outcome outcome = {answer, answer == ACCEPTED ? count : 0};
    return packed(outcome);
}

uint64_t kadalumbir_check_page(const uint8_t *page, size_t page_len)
{
    return checked(check_page(page, page_len), page_len / SLOT_BYTES);
}

uint64_t kadalumbir_check_log(const uint8_t *log, size_t log_len)
{
    return checked(check_log(log, log_len), log_len / SLOT_BYTES);
}

uint64_t kadalumbir_check_epochs(const uint8_t *table, size_t table_len)
{
    return checked(check_table(table, table_len), table_len / ENTRY_BYTES);
}

uint64_t kadalumbir_insert(const uint8_t *page, size_t page_len, const uint8_t *slot, size_t slot_len, uint8_t *out,
                           size_t out_len)
{
    return packed(insert_slot(page, page_len, slot, slot_len, out, out_len));
}

uint64_t kadalumbir_remove(const uint8_t *page, size_t page_len, const uint8_t *slot, size_t slot_len, uint8_t *out,
                           size_t out_len)
{
    return packed(remove_slot(page, page_len, slot, slot_len, out, out_len));
}

uint64_t kadalumbir_new_name(const uint8_t *page, size_t page_len, size_t gap, uint16_t node, uint32_t sequence,
                             uint8_t *out, size_t out_len)
{
    Slot slot = {0, {0, {{0, 0, 0, 0}}}};
    int answer = new_name(page, page_len, gap, node, sequence, &slot.name);
    if (answer == ACCEPTED && out_len < SLOT_BYTES)
        answer = OUTPUT_SHORT;
    if (answer == ACCEPTED)
        write_slot(out, &slot);
    return checked(answer, 0);
}

uint64_t kadalumbir_rename(const uint8_t *page, size_t page_len, const uint8_t *log, size_t log_len, uint16_t node,
                           uint32_t sequence, uint8_t *out, size_t out_len)
{
    return packed(rename_page(page, page_len, log, log_len, node, sequence, out, out_len));
}

uint64_t kadalumbir_take_back(const uint8_t *page, size_t page_len, const uint8_t *log, size_t log_len, uint16_t node,
                              uint32_t sequence, uint8_t *out, size_t out_len)
{
    return packed(take_page_back(page, page_len, log, log_len, node, sequence, out, out_len));
}

uint64_t kadalumbir_from_old(const uint8_t *old, size_t old_len, uint8_t *out, size_t out_len)
{
    return packed(from_old(old, old_len, out, out_len));
}

uint64_t kadalumbir_to_old(const uint8_t *page, size_t page_len, uint8_t *out, size_t out_len)
{
    return packed(to_old(page, page_len, out, out_len));
}

uint64_t kadalumbir_next_step(const uint8_t *table, size_t table_len, size_t current, uint8_t *step, uint32_t *index)
{
    NextStep next = next_step(table, table_len, current);
    *step = (uint8_t)next.step;
    *index = (uint32_t)next.index;
    return checked(next.answer, 0);
}

uint64_t kadalumbir_add_epoch(const uint8_t *table, size_t table_len, size_t parent, uint16_t node, uint32_t sequence,
                              uint16_t count, uint8_t *out, size_t out_len)
{
    return packed(add_epoch(table, table_len, parent, node, sequence, count, out, out_len));
}

uint64_t kadalumbir_write_message(uint8_t kind, uint16_t epoch_node, uint32_t epoch_sequence, uint16_t author_node,
                                  uint32_t author_sequence, uint32_t line, const uint8_t *names, size_t names_len,
                                  uint8_t *out, size_t out_len)
{
    Numbers numbers = {kind, {epoch_node, epoch_sequence}, {author_node, author_sequence}, line};
    return packed(write_message(&numbers, names, names_len, out, out_len));
}

uint64_t kadalumbir_read_message(const uint8_t *message, size_t message_len, uint8_t *kind, uint16_t *epoch_node,
                                 uint32_t *epoch_sequence, uint16_t *author_node, uint32_t *author_sequence,
                                 uint32_t *line, uint8_t *out, size_t out_len)
{
    Numbers numbers;
    Outcome outcome = read_message(message, message_len, &numbers, out, out_len);
    *kind = numbers.kind;
    *epoch_node = numbers.epoch.node;
    *epoch_sequence = numbers.epoch.sequence;
    *author_node = numbers.author.node;
    *author_sequence = numbers.author.sequence;
    *line = numbers.line;
    return packed(outcome);
}

uint64_t kadalumbir_group(const uint8_t *page, size_t page_len, uint8_t *out, size_t out_len)
{
    return packed(group_page(page, page_len, out, out_len));
}

uint64_t kadalumbir_ungroup(const uint8_t *form, size_t form_len, uint8_t *out, size_t out_len)
{
    return packed(ungroup_form(form, form_len, out, out_len));
}

uint64_t kadalumbir_group_insert(const uint8_t *form, size_t form_len, const uint8_t *slot, size_t slot_len, uint8_t *out,
                                 size_t out_len)
{
    return packed(insert_grouped(form, form_len, slot, slot_len, out, out_len));
}

uint64_t kadalumbir_group_remove(const uint8_t *form, size_t form_len, const uint8_t *slot, size_t slot_len, uint8_t *out,
                                 size_t out_len)
{
    return packed(remove_grouped(form, form_len, slot, slot_len, out, out_len));
}
