/*
 * bench [--strict]: times each call of the library against C in place and against a copy of the bytes that it is
 * given, and prints tables. C in place is in_place.c: the same calls with the same refusals, written by hand on the
 * bytes as they are given, to be fast. With --strict the status is not 0 where a call takes longer than C in place, or
 * where twice the lines cost too much: a loaded machine may be to blame, so that this is not so without.
 */
#include <math.h>
#include <stdbool.h>
#include <stdio.h>
#include <stdlib.h>
#include <string.h>

#include "../include/kadalumbir.h"
#include "inputs.h"
#include "timing.h"

enum { LIBRARY, IN_PLACE, COPY, SIDES };
enum { SIZES = 3 };

/* What a call should take at most, and what it may, as a share of what C in place takes. */
static const double goal = 0.8, bar = 1.0;

/* What twice the lines may cost. */
static const double most_growth = 2.2;

/* Calls on inputs of the same sizes, which are printed as one table. */
typedef struct {
    Operation begin, end;
    const char *shape, *counted;
    size_t sizes[SIZES];
    bool limited; /* a table is at most 32 entries, and has no limit of its own */
} Family;

static const Family families[] = {
    {CHECK_PAGE, GROUP_PAGE, "names", "lines", {16, 64, 256}, true},
    {GROUP_PAGE, CHECK_EPOCHS, "book", "lines", {16, 64, 256}, true},
    {CHECK_EPOCHS, OPERATIONS, "table", "entries", {8, 16, 32}, false},
};

enum { FAMILIES = sizeof families / sizeof families[0] };

static const char *const operation_names[OPERATIONS] = {
    [CHECK_PAGE] = "check page",
    [CHECK_LOG] = "check log",
    [INSERT_SLOT] = "insert",
    [REMOVE_SLOT] = "remove",
    [NEW_NAME] = "new name",
    [RENAME_PAGE] = "rename",
    [TAKE_BACK] = "take back",
    [TAKE_BACK_EDITED] = "take back, edited",
    [TAKE_BACK_MARKED] = "take back, marked",
    [TAKE_BACK_MARKED_LOG] = "take back, marked log",
    [WRITE_MESSAGE] = "write message",
    [READ_MESSAGE] = "read message",
    [FROM_OLD] = "from old",
    [TO_OLD] = "to old",
    [GROUP_PAGE] = "group",
    [UNGROUP_FORM] = "ungroup",
    [GROUP_INSERT] = "group insert",
    [GROUP_REMOVE] = "group remove",
    [CHECK_EPOCHS] = "check epochs",
    [NEXT_STEP] = "next step",
    [ADD_EPOCH] = "add epoch",
};

static const char *const book_names[SHAPES] = {
    [FRESH] = "fresh",
    [RENAMED] = "renamed",
    [ADDED_TO] = "added to",
};

static const char *shape_name(Operation operation, Shape shape)
{
    static char text[64];
    if (operation >= CHECK_EPOCHS)
        return shape == CHAIN ? "chain" : "star";
    if (operation >= GROUP_PAGE)
        return book_names[shape];
    if (shape == SHALLOW)
        return "1 tuple";
    Depths depths = depths_of(operation, shape);
    snprintf(text, sizeof text, "%zu to %zu", depths.shared + 1, depths.deepest);
    return text;
}

/* A row of a table is an operation on inputs of one shape; not every operation has all shapes. */
static Input inputs[OPERATIONS * SHAPES][SIZES];
static Timed timed[OPERATIONS * SHAPES][SIZES][SIDES];
static size_t row_index[OPERATIONS][SHAPES], rows;

static uint64_t copy_input(const Input *input, Output *output)
{
    memcpy(output->bytes, input->first.bytes, input->first.length);
    memcpy(output->bytes + input->first.length, input->second.bytes, input->second.length);
    return 0;
}

/* Ends the program where the library and C in place differ, or refuse: a refusal is not what is to be timed. */
static void hold_call(Operation operation, const Input *input)
{
    static Output is, must;
    memset(&is, 0xa5, sizeof is);
    memset(&must, 0xa5, sizeof must);
    uint64_t result = library_calls[operation](input, &is), in_place_result = in_place_calls[operation](input, &must);
    bool same = result == in_place_result && memcmp(&is, &must, sizeof is) == 0;
    if (same && kadalumbir_answer_of(result) == KADALUMBIR_ACCEPTED)
        return;
    printf("%s: the answer is %d, that of C in place %d, and both must accept and write the same\n",
           operation_names[operation], (int)kadalumbir_answer_of(result), (int)kadalumbir_answer_of(in_place_result));
    exit(EXIT_FAILURE);
}

/* One call on an input of one size, to be timed on each side. */
static void prepare(Operation operation, Shape shape, size_t i, size_t size)
{
    const Call calls[SIDES] = {library_calls[operation], in_place_calls[operation], copy_input};
    size_t row = row_index[operation][shape];
    Input *input = &inputs[row][i];
    make_input(operation, shape, size, input);
    hold_call(operation, input);
    for (int side = 0; side < SIDES; side++) {
        timed[row][i][side].call = calls[side];
        timed[row][i][side].input = input;
    }
}

static void prepare_family(const Family *family)
{
    for (Operation operation = family->begin; operation < family->end; operation++)
        for (Shape shape = SHALLOW; shape < shapes_of(operation); shape++) {
            row_index[operation][shape] = rows++;
            for (size_t i = 0; i < SIZES; i++)
                prepare(operation, shape, i, family->sizes[i]);
        }
}

static double nanoseconds(Operation operation, Shape shape, size_t i, int side)
{
    return timed[row_index[operation][shape]][i][side].nanoseconds;
}

static double ratio(Operation operation, Shape shape, size_t i, int side)
{
    return nanoseconds(operation, shape, i, LIBRARY) / nanoseconds(operation, shape, i, side);
}

/* How much more each doubling costs between two sizes. */
static double growth(const Family *family, Operation operation, Shape shape, size_t i)
{
    double more = nanoseconds(operation, shape, i + 1, LIBRARY) / nanoseconds(operation, shape, i, LIBRARY);
    return pow(more, 1 / log2((double)family->sizes[i + 1] / (double)family->sizes[i]));
}

static void print_heading(const Family *family)
{
    const size_t *sizes = family->sizes;
    printf("| call | %s | ns: %zu %s | %zu | %zu |", family->shape, sizes[0], family->counted, sizes[1], sizes[2]);
    printf(" to C in place: %zu | %zu | %zu |", sizes[0], sizes[1], sizes[2]);
    printf(" to a copy: %zu | %zu | %zu |", sizes[0], sizes[1], sizes[2]);
    printf(" per doubling: %zu to %zu | %zu to %zu |\n", sizes[0], sizes[1], sizes[1], sizes[2]);
    printf("|---|---|---|---|---|---|---|---|---|---|---|---|---|\n");
}

static void print_row(const Family *family, Operation operation, Shape shape)
{
    printf("| %s | %s |", operation_names[operation], shape_name(operation, shape));
    for (size_t i = 0; i < SIZES; i++)
        printf(" %.0f |", nanoseconds(operation, shape, i, LIBRARY));
    for (size_t i = 0; i < SIZES; i++)
        printf(" %.2f |", ratio(operation, shape, i, IN_PLACE));
    for (size_t i = 0; i < SIZES; i++)
        printf(" %.1f |", ratio(operation, shape, i, COPY));
    for (size_t i = 0; i + 1 < SIZES; i++)
        printf(" %.2f |", growth(family, operation, shape, i));
    printf("\n");
}

static void print_family(const Family *family)
{
    print_heading(family);
    for (Operation operation = family->begin; operation < family->end; operation++)
        for (Shape shape = SHALLOW; shape < shapes_of(operation); shape++)
            print_row(family, operation, shape);
    printf("\n");
}

/* The bytes of a book of 256 lines as a page and as a form, and of the message of a rename of its names. */
static void print_bytes(void)
{
    static Input input;
    static Output output;
    printf("| book of %d lines | page, bytes | form | message of a rename of its names |\n|---|---|---|---|\n",
           SLOT_LIMIT);
    for (Shape shape = FRESH; shape < SHAPES; shape++) {
        make_input(GROUP_PAGE, shape, SLOT_LIMIT, &input);
        uint64_t form = library_calls[GROUP_PAGE](&input, &output);
        clear_lines(&input.first);
        uint64_t message = library_calls[WRITE_MESSAGE](&input, &output);
        printf("| %s | %zu | %u | %u |\n", book_names[shape], input.first.length, kadalumbir_count_of(form),
               kadalumbir_count_of(message));
    }
    printf("\n");
}

/* Gives how often a call takes longer than it may. */
static size_t tell_above(const Family *family)
{
    size_t times = 0;
    for (Operation operation = family->begin; operation < family->end; operation++)
        for (Shape shape = SHALLOW; shape < shapes_of(operation); shape++)
            for (size_t i = 0; i < SIZES; i++)
                if (ratio(operation, shape, i, IN_PLACE) > goal) {
                    bool barred = ratio(operation, shape, i, IN_PLACE) > bar;
                    if (barred)
                        printf("above C in place: ");
                    else
                        printf("above the goal of %.1f times C in place: ", goal);
                    printf("%s, %s, %zu %s: %.2f\n", operation_names[operation], shape_name(operation, shape),
                           family->sizes[i], family->counted, ratio(operation, shape, i, IN_PLACE));
                    times += barred;
                }
    return times;
}

/* Gives how often twice as much costs more than it may. */
static size_t tell_growth(const Family *family)
{
    size_t times = 0;
    for (Operation operation = family->begin; operation < family->end; operation++)
        for (Shape shape = SHALLOW; shape < shapes_of(operation); shape++)
            for (size_t i = 0; i + 1 < SIZES; i++)
                if (growth(family, operation, shape, i) > most_growth) {
                    printf("twice the %s cost more than %.1f times as much: %s, %s, %zu to %zu: %.2f\n",
                           family->counted, most_growth, operation_names[operation], shape_name(operation, shape),
                           family->sizes[i], family->sizes[i + 1], growth(family, operation, shape, i));
                    times++;
                }
    return times;
}

int main(int argc, char **argv)
{
    bool strict = argc == 2 && strcmp(argv[1], "--strict") == 0;
    if (argc > 1 && !strict) {
        fprintf(stderr, "usage: bench/run [--strict]\n");
        return EXIT_FAILURE;
    }
    size_t too_much = 0;
    for (size_t i = 0; i < FAMILIES; i++)
        prepare_family(&families[i]);
    time_all(&timed[0][0][0], rows * SIZES * SIDES);
    for (size_t i = 0; i < FAMILIES; i++)
        print_family(&families[i]);
    print_bytes();
    for (size_t i = 0; i < FAMILIES; i++)
        too_much += tell_above(&families[i]);
    for (size_t i = 0; i < FAMILIES; i++) {
        size_t times = tell_growth(&families[i]);
        too_much += families[i].limited ? times : 0;
    }
    return strict && too_much > 0 ? EXIT_FAILURE : EXIT_SUCCESS;
}
