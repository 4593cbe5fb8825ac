/* Compiled twice: as it is, for the library, and after in_place_names.h, for C in place. */
#include "calls.h"

#include "../include/kadalumbir.h"

#ifndef CALLS
#define CALLS library_calls
#endif

static uint64_t call_check_page(const Input *in, Output *out)
{
    (void)out;
    return kadalumbir_check_page(in->first.bytes, in->first.length);
}

static uint64_t call_check_log(const Input *in, Output *out)
{
    (void)out;
    return kadalumbir_check_log(in->first.bytes, in->first.length);
}

static uint64_t call_insert(const Input *in, Output *out)
{
    return kadalumbir_insert(in->first.bytes, in->first.length, in->second.bytes, in->second.length, out->bytes,
                             sizeof out->bytes);
}

static uint64_t call_remove(const Input *in, Output *out)
{
    return kadalumbir_remove(in->first.bytes, in->first.length, in->second.bytes, in->second.length, out->bytes,
                             sizeof out->bytes);
}

static uint64_t call_new_name(const Input *in, Output *out)
{
    return kadalumbir_new_name(in->first.bytes, in->first.length, in->index, AUTHOR_NODE, AUTHOR_SEQUENCE, out->bytes,
                               sizeof out->bytes);
}

static uint64_t call_rename(const Input *in, Output *out)
{
    return kadalumbir_rename(in->first.bytes, in->first.length, in->second.bytes, in->second.length, AUTHOR_NODE,
                             AUTHOR_SEQUENCE, out->bytes, sizeof out->bytes);
}

static uint64_t call_take_back(const Input *in, Output *out)
{
    return kadalumbir_take_back(in->first.bytes, in->first.length, in->second.bytes, in->second.length, AUTHOR_NODE,
                                AUTHOR_SEQUENCE, out->bytes, sizeof out->bytes);
}

static uint64_t call_write_message(const Input *in, Output *out)
{
    return kadalumbir_write_message(KADALUMBIR_RENAME, 0, 0, AUTHOR_NODE, AUTHOR_SEQUENCE, 0, in->first.bytes,
                                    in->first.length, out->bytes, sizeof out->bytes);
}

static uint64_t call_read_message(const Input *in, Output *out)
{
    Numbers *numbers = &out->numbers;
    return kadalumbir_read_message(in->first.bytes, in->first.length, &numbers->kind, &numbers->epoch.node,
                                   &numbers->epoch.sequence, &numbers->author.node, &numbers->author.sequence,
                                   &numbers->line, out->bytes, sizeof out->bytes);
}

static uint64_t call_from_old(const Input *in, Output *out)
{
    return kadalumbir_from_old(in->first.bytes, in->first.length, out->bytes, sizeof out->bytes);
}

static uint64_t call_to_old(const Input *in, Output *out)
{
    return kadalumbir_to_old(in->first.bytes, in->first.length, out->bytes, sizeof out->bytes);
}

static uint64_t call_group(const Input *in, Output *out)
{
    return kadalumbir_group(in->first.bytes, in->first.length, out->bytes, sizeof out->bytes);
}

static uint64_t call_ungroup(const Input *in, Output *out)
{
    return kadalumbir_ungroup(in->first.bytes, in->first.length, out->bytes, sizeof out->bytes);
}

static uint64_t call_group_insert(const Input *in, Output *out)
{
    return kadalumbir_group_insert(in->first.bytes, in->first.length, in->second.bytes, in->second.length, out->bytes,
                                   sizeof out->bytes);
}

static uint64_t call_group_remove(const Input *in, Output *out)
{
    return kadalumbir_group_remove(in->first.bytes, in->first.length, in->second.bytes, in->second.length, out->bytes,
                                   sizeof out->bytes);
}

static uint64_t call_check_epochs(const Input *in, Output *out)
{
    (void)out;
    return kadalumbir_check_epochs(in->first.bytes, in->first.length);
}

static uint64_t call_next_step(const Input *in, Output *out)
{
    return kadalumbir_next_step(in->first.bytes, in->first.length, in->index, &out->step, &out->index);
}

static uint64_t call_add_epoch(const Input *in, Output *out)
{
    return kadalumbir_add_epoch(in->first.bytes, in->first.length, in->index, AUTHOR_NODE, AUTHOR_SEQUENCE,
                                AUTHOR_NAMES, out->bytes, sizeof out->bytes);
}

const Call CALLS[OPERATIONS] = {
    [CHECK_PAGE] = call_check_page,
    [CHECK_LOG] = call_check_log,
    [INSERT_SLOT] = call_insert,
    [REMOVE_SLOT] = call_remove,
    [NEW_NAME] = call_new_name,
    [RENAME_PAGE] = call_rename,
    [TAKE_BACK] = call_take_back,
    [TAKE_BACK_EDITED] = call_take_back,
    [TAKE_BACK_MARKED] = call_take_back,
    [TAKE_BACK_MARKED_LOG] = call_take_back,
    [WRITE_MESSAGE] = call_write_message,
    [READ_MESSAGE] = call_read_message,
    [FROM_OLD] = call_from_old,
    [TO_OLD] = call_to_old,
    [GROUP_PAGE] = call_group,
    [UNGROUP_FORM] = call_ungroup,
    [GROUP_INSERT] = call_group_insert,
    [GROUP_REMOVE] = call_group_remove,
    [CHECK_EPOCHS] = call_check_epochs,
    [NEXT_STEP] = call_next_step,
    [ADD_EPOCH] = call_add_epoch,
};
