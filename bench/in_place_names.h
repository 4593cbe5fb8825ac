/* Stands before calls.c and in_place.c, so that C in place can be linked beside the library. */
#ifndef BENCH_IN_PLACE_NAMES_H
#define BENCH_IN_PLACE_NAMES_H

#define CALLS in_place_calls

#define kadalumbir_check_page in_place_check_page
#define kadalumbir_check_log in_place_check_log
#define kadalumbir_check_epochs in_place_check_epochs
#define kadalumbir_insert in_place_insert
#define kadalumbir_remove in_place_remove
#define kadalumbir_new_name in_place_new_name
#define kadalumbir_rename in_place_rename
#define kadalumbir_take_back in_place_take_back
#define kadalumbir_next_step in_place_next_step
#define kadalumbir_add_epoch in_place_add_epoch
#define kadalumbir_write_message in_place_write_message
#define kadalumbir_read_message in_place_read_message
#define kadalumbir_from_old in_place_from_old
#define kadalumbir_to_old in_place_to_old
#define kadalumbir_group in_place_group
#define kadalumbir_ungroup in_place_ungroup
#define kadalumbir_group_insert in_place_group_insert
#define kadalumbir_group_remove in_place_group_remove

#endif
