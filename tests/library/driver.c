/*
 * driver SEED CASES LEAST: holds the library to the plain C of tests/reference on at least so many random cases, the same
 * for the same seed, and prints what was met. Fails if a case differs, or if an answer that 01 or 02 has for a call, or a way in
 * which it comes to what it gives, was met fewer than LEAST times.
 */
#include <stdio.h>
#include <stdlib.h>

#include "edges.h"
#include "hold.h"
#include "sorts.h"

static const struct {
    void (*run)(void);
    size_t share;
} sorts[] = {
    {check_case, 10},    {slot_case, 5},       {insert_case, 25},      {remove_case, 20},       {gap_case, 30},
    {rename_case, 60},   {take_back_case, 60}, {from_old_case, 15},    {to_old_case, 20},       {table_case, 20},
    {step_case, 15},     {walk_case, 15},      {add_case, 30},         {write_case, 40},        {read_case, 40},
    {cuts_case, 2},      {many_case, 6},       {long_check_case, 4},   {long_edit_case, 10},    {long_rename_case, 6},
    {group_case, 20},    {ungroup_case, 30},   {group_insert_case, 40}, {group_remove_case, 40}, {any_form_case, 2},
    {form_cuts_case, 1}, {long_group_case, 12}, {book_chain, 4},       {epoch_chain, 2},        {message_chain, 4},
    {form_chain, 3},
};

static size_t all_shares(void)
{
    size_t shares = 0;
    for (size_t i = 0; i < LENGTH(sorts); i++)
        shares += sorts[i].share;
    return shares;
}

static void run_one(size_t drawn)
{
    size_t i = 0;
    while (drawn >= sorts[i].share)
        drawn -= sorts[i++].share;
    sorts[i].run();
}

int main(int argc, char **argv)
{
    if (argc != 4) {
        fputs("usage: driver SEED CASES LEAST\n", stderr);
        return EXIT_FAILURE;
    }
    start_random(strtoull(argv[1], NULL, 10));
    size_t cases = strtoull(argv[2], NULL, 10), least = strtoull(argv[3], NULL, 10), shares = all_shares();
    while (cases_held() < cases)
        run_one(random_below(shares));
    return tell_what_was_met(least) ? EXIT_SUCCESS : EXIT_FAILURE;
}
