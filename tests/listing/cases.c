/*
 * cases DIRECTORY: writes the inputs of the listing's test, one file each.
 *
 * A hand-made input is named NNNN-label.A, where A is the answer that document 01 gives to it, 0, 1 or 2: the reference
 * is held to that too. A random one is named NNNN-label. Every run writes the same files.
 */
#include <stdarg.h>
#include <stdio.h>
#include <stdlib.h>
#include <string.h>

#include "../reference/chance.h"
#include "../reference/old_pages.h"

enum { LONGEST_INPUT = 1000000, LABEL_BYTES = 64 };

static const size_t depth_limits[] = {OLD_DEPTH_LIMIT, DEPTH_LIMIT};

#define COUNT(row) (sizeof(row) / sizeof *(row))

/* The input that is being made. */
static uint8_t input[LONGEST_INPUT];
static size_t input_length;

static const char *directory;
static int inputs_written;

static void fail(const char *what)
{
    perror(what);
    exit(EXIT_FAILURE);
}

/* ---- making one input */

static void begin(void)
{
    input_length = 0;
}

/* Gives the input this length; bytes that come new are zero. */
static void set_length(size_t length)
{
    if (length > input_length)
        memset(input + input_length, 0, length - input_length);
    input_length = length;
}

static uint8_t *slot_bytes(size_t i)
{
    return input + i * SLOT_BYTES;
}

static void add(uint32_t line, Name name)
{
    Slot slot = {line, name};
    set_length(input_length + SLOT_BYTES);
    write_slot(input + input_length - SLOT_BYTES, &slot);
}

static void write_input(const char *file_name)
{
    char path[4096];
    int wanted = snprintf(path, sizeof path, "%s/%04d-%s", directory, inputs_written, file_name);
    if (wanted < 0 || (size_t)wanted >= sizeof path) {
        fputs("cases: the directory's name is too long\n", stderr);
        exit(EXIT_FAILURE);
    }
    FILE *file = fopen(path, "wb");
    if (file == NULL || fwrite(input, 1, input_length, file) != input_length || fclose(file) != 0)
        fail(path);
    inputs_written++;
}

static void keep(int answer, const char *label, ...)
{
    char text[LABEL_BYTES], file_name[LABEL_BYTES + 16];
    va_list words;
    va_start(words, label);
    vsnprintf(text, sizeof text, label, words);
    va_end(words);
    snprintf(file_name, sizeof file_name, "%s.%d", text, answer);
    write_input(file_name);
}

/* The label and a number; it stands until the next one is made. */
static const char *numbered(const char *label, size_t number)
{
    static char text[LABEL_BYTES];
    snprintf(text, sizeof text, "%s-%zu", label, number);
    return text;
}

/* ---- names by hand */

static Name name_of(size_t depth, const Tuple *tuples)
{
    Name name = {depth, {{0, 0, 0, 0}}};
    memcpy(name.tuples, tuples, depth * sizeof *tuples);
    return name;
}

#define NAME(...) name_of(sizeof((Tuple[]){__VA_ARGS__}) / sizeof(Tuple), (Tuple[]){__VA_ARGS__})

static const Tuple plain = {9, 2, 0, 0};

/* The name of this depth whose tuples are all plain. */
static Name plain_name(size_t depth)
{
    Name name = {depth, {{0, 0, 0, 0}}};
    for (size_t i = 0; i < depth; i++)
        name.tuples[i] = plain;
    return name;
}

/* A plain name of this depth, but for its last tuple. */
static Name plain_but_last(size_t depth, Tuple last)
{
    Name name = plain_name(depth);
    name.tuples[depth - 1] = last;
    return name;
}

/* The name number i of a rising row. */
static Name rising_name(size_t i)
{
    return NAME({(uint16_t)(1 + i / 2), 1, 0, (int32_t)(i % 2)});
}

static void rising_slots(size_t count)
{
    begin();
    for (size_t i = 0; i < count; i++)
        add((uint32_t)(1000 + i), rising_name(i));
}

static void one_name(int answer, const char *label, Name name)
{
    begin();
    add(7, name);
    keep(answer, "%s", label);
}

static void two_names(int answer, const char *label, Name first, Name second)
{
    begin();
    add(7, first);
    add(12, second);
    keep(answer, "%s", label);
}

/* Both orders of two names, of which the first is smaller. */
static void smaller(const char *label, Name first, Name second)
{
    char text[LABEL_BYTES];
    snprintf(text, sizeof text, "rising-%s", label);
    two_names(ACCEPTED, text, first, second);
    snprintf(text, sizeof text, "falling-%s", label);
    two_names(PAGE_NOT_RISING, text, second, first);
}

/* ---- the inputs by hand */

/* "For line 7 named r0 and line 12 named r1" */
static void sample(void)
{
    begin();
    add(7, NAME({9, 2, 0, 0}));
    add(12, NAME({9, 2, 0, 0}, {6, 1, 0, 0}));
    keep(ACCEPTED, "sample");
}

static void lengths(void)
{
    begin();
    keep(ACCEPTED, "empty");
    static const size_t parts_of_slots[] = {
        1, OLD_SLOT_BYTES - 1, OLD_SLOT_BYTES, OLD_SLOT_BYTES + 1, SLOT_BYTES - 1, SLOT_BYTES + 1,
        2 * OLD_SLOT_BYTES - 1, 2 * OLD_SLOT_BYTES, 2 * OLD_SLOT_BYTES + 1, 2 * SLOT_BYTES - 1, 2 * SLOT_BYTES + 1,
        OLD_PAGE_BYTES - 1, OLD_PAGE_BYTES, OLD_PAGE_BYTES + 1, PAGE_BYTES - 1
    };
    for (size_t i = 0; i < COUNT(parts_of_slots); i++) {
        rising_slots(SLOT_LIMIT);
        set_length(parts_of_slots[i]);
        keep(PAGE_LAYOUT, "bytes-%zu", parts_of_slots[i]);
    }
    rising_slots(SLOT_LIMIT);
    keep(ACCEPTED, "slots-%d", SLOT_LIMIT);
    set_length(PAGE_BYTES + 1);
    keep(PAGE_LAYOUT, "page-and-a-byte");
    rising_slots(SLOT_LIMIT + 1);
    keep(PAGE_LAYOUT, "slots-%d", SLOT_LIMIT + 1);
    rising_slots(2 * SLOT_LIMIT);
    keep(PAGE_LAYOUT, "slots-%d", 2 * SLOT_LIMIT);
    rising_slots(SLOT_LIMIT);
    set_length(LONGEST_INPUT);
    keep(PAGE_LAYOUT, "bytes-%d", LONGEST_INPUT);
    static const size_t zeros[] = {OLD_SLOT_BYTES, SLOT_BYTES, OLD_PAGE_BYTES, PAGE_BYTES};
    for (size_t i = 0; i < COUNT(zeros); i++) {
        begin();
        set_length(zeros[i]);
        keep(PAGE_LAYOUT, "zeros-%zu", zeros[i]);
    }
}

/* 02, P8: "A slot becomes 200 bytes, 16 tuples after the same first eight bytes": an old slot is the beginning of a new one,
 * and where whole old slots are whole new ones too, the second stands where the first has its filler. */
static void old_pages(void)
{
    static const size_t counts[] = {1, 25, 250, SLOT_LIMIT};
    for (size_t i = 0; i < COUNT(counts); i++)
        for (size_t depth = 1; depth <= OLD_DEPTH_LIMIT; depth += OLD_DEPTH_LIMIT - 1) {
            begin();
            for (size_t k = 0; k < counts[i]; k++) {
                Slot slot = {7, plain_but_last(depth, (Tuple){9, 2, 0, (int32_t)k})};
                write_slot_of(OLD_DEPTH_LIMIT, input + k * OLD_SLOT_BYTES, &slot);
            }
            input_length = counts[i] * OLD_SLOT_BYTES;
            keep(PAGE_LAYOUT, "old-page-of-%zu-with-depth-%zu", counts[i], depth);
        }
}

/* Depths out of range, depths that are not the name's own, and the three zero bytes. */
static void heads(void)
{
    static const uint8_t depths[] = {0, OLD_DEPTH_LIMIT, OLD_DEPTH_LIMIT + 1, DEPTH_LIMIT - 1, DEPTH_LIMIT + 1, 255};
    for (size_t i = 0; i < COUNT(depths); i++) {
        begin();
        add(7, plain_name(DEPTH_LIMIT));
        slot_bytes(0)[0] = depths[i];
        keep(PAGE_LAYOUT, "depth-%d-of-%d-tuples", depths[i], DEPTH_LIMIT);
    }
    begin();
    add(7, plain_name(2));
    slot_bytes(0)[0] = 1;
    keep(PAGE_LAYOUT, "depth-1-of-two-tuples");
    slot_bytes(0)[0] = 3;
    keep(PAGE_LAYOUT, "depth-3-of-two-tuples");
    for (size_t at = 1; at <= 3; at++) {
        rising_slots(1);
        slot_bytes(0)[at] = 1;
        keep(PAGE_LAYOUT, "zero-byte-%zu-is-1", at);
        rising_slots(3);
        slot_bytes(2)[at] = 128;
        keep(PAGE_LAYOUT, "zero-byte-%zu-of-slot-2-is-128", at);
    }
}

static void fillers(void)
{
    for (size_t depth = 1; depth < DEPTH_LIMIT; depth++) {
        begin();
        add(7, plain_name(depth));
        keep(ACCEPTED, "depth-%zu", depth);
        slot_bytes(0)[HEAD_BYTES + depth * TUPLE_BYTES] = 1;
        keep(PAGE_LAYOUT, "depth-%zu-first-filler", depth);
        begin();
        add(7, plain_name(depth));
        slot_bytes(0)[SLOT_BYTES - 1] = 1;
        keep(PAGE_LAYOUT, "depth-%zu-last-filler", depth);
    }
    one_name(ACCEPTED, numbered("depth", DEPTH_LIMIT), plain_name(DEPTH_LIMIT));
}

/* "markers may stand only between" */
static void markers(void)
{
    static const struct {
        const char *label;
        const Tuple *tuple;
    } both[] = {{"m", &low_marker}, {"M", &high_marker}};
    char text[LABEL_BYTES];
    for (size_t i = 0; i < 2; i++) {
        Tuple marker = *both[i].tuple;
        snprintf(text, sizeof text, "%s-alone", both[i].label);
        one_name(PAGE_LAYOUT, text, NAME(marker));
        snprintf(text, sizeof text, "%s-first", both[i].label);
        one_name(PAGE_LAYOUT, text, NAME(marker, plain, plain));
        snprintf(text, sizeof text, "%s-last", both[i].label);
        one_name(PAGE_LAYOUT, text, NAME(plain, plain, marker));
        snprintf(text, sizeof text, "%s-between", both[i].label);
        one_name(ACCEPTED, text, NAME(plain, marker, plain));
        snprintf(text, sizeof text, "%s-twice-between", both[i].label);
        one_name(ACCEPTED, text, NAME(plain, marker, marker, plain));
        for (size_t k = 0; k < COUNT(depth_limits); k++) {
            Name ends = plain_but_last(depth_limits[k], marker);
            ends.tuples[0] = marker;
            snprintf(text, sizeof text, "%s-first-and-last-of-depth-%zu", both[i].label, depth_limits[k]);
            one_name(PAGE_LAYOUT, text, ends);
        }
    }
    for (size_t k = 0; k < COUNT(depth_limits); k++) {
        Name between = plain_name(depth_limits[k]);
        for (size_t i = 1; i + 1 < between.depth; i++)
            between.tuples[i] = i % 4 < 2 ? low_marker : high_marker;
        one_name(ACCEPTED, numbered("markers-between-of-depth", depth_limits[k]), between);
    }
}

/* Tuples that miss a marker by one number; each is put between. */
static void near_markers(void)
{
    static const Tuple tuples[] = {
        {1, 0, 0, 0}, {0, 1, 0, 0}, {0, 0, 1, 0}, {0, 0, 0, 1}, {0, 0, 0, -1},
        {65534, 65535, 4294967295, 2147483647}, {65535, 65534, 4294967295, 2147483647},
        {65535, 65535, 4294967294, 2147483647}, {65535, 65535, 4294967295, 2147483646},
        {65535, 65535, 4294967295, -1}
    };
    for (size_t i = 0; i < COUNT(tuples); i++) {
        Tuple t = tuples[i];
        begin();
        add(7, NAME(plain, t, plain));
        keep(PAGE_LAYOUT, "no-marker-%u-%u-%lu-%ld", t.position, t.node, (unsigned long)t.sequence, (long)t.offset);
    }
}

/* Puts one tuple at the start, inside and at the end of a name, and alone. */
static void everywhere(const char *label, Tuple t, int first, int inside, int last)
{
    char text[LABEL_BYTES];
    snprintf(text, sizeof text, "%s-first", label);
    one_name(first, text, NAME(t, plain));
    snprintf(text, sizeof text, "%s-inside", label);
    one_name(inside, text, NAME(plain, t, plain));
    snprintf(text, sizeof text, "%s-last", label);
    one_name(last, text, NAME(plain, t));
    snprintf(text, sizeof text, "%s-alone", label);
    one_name(last, text, NAME(t));
}

static void ranges(void)
{
    everywhere("offset-minus-1", (Tuple){9, 2, 0, -1}, ACCEPTED, ACCEPTED, PAGE_LAYOUT);
    everywhere("offset-minus-2", (Tuple){9, 2, 0, -2}, PAGE_LAYOUT, PAGE_LAYOUT, PAGE_LAYOUT);
    everywhere("offset-least", (Tuple){9, 2, 0, INT32_MIN}, PAGE_LAYOUT, PAGE_LAYOUT, PAGE_LAYOUT);
    everywhere("offset-2147483646", (Tuple){9, 2, 0, 2147483646}, ACCEPTED, ACCEPTED, ACCEPTED);
    everywhere("offset-2147483647", (Tuple){9, 2, 0, 2147483647}, PAGE_LAYOUT, PAGE_LAYOUT, PAGE_LAYOUT);
    everywhere("position-0", (Tuple){0, 2, 0, 0}, PAGE_LAYOUT, PAGE_LAYOUT, PAGE_LAYOUT);
    everywhere("position-1", (Tuple){1, 2, 0, 0}, ACCEPTED, ACCEPTED, ACCEPTED);
    everywhere("position-65534", (Tuple){65534, 2, 0, 0}, ACCEPTED, ACCEPTED, ACCEPTED);
    everywhere("position-65535", (Tuple){65535, 2, 0, 0}, PAGE_LAYOUT, PAGE_LAYOUT, PAGE_LAYOUT);
    everywhere("node-0", (Tuple){9, 0, 0, 0}, PAGE_LAYOUT, PAGE_LAYOUT, PAGE_LAYOUT);
    everywhere("node-1", (Tuple){9, 1, 0, 0}, ACCEPTED, ACCEPTED, ACCEPTED);
    everywhere("node-65535", (Tuple){9, 65535, 0, 0}, ACCEPTED, ACCEPTED, ACCEPTED);
    everywhere("sequence-4294967295", (Tuple){9, 2, 4294967295, 0}, ACCEPTED, ACCEPTED, ACCEPTED);
    for (size_t i = 0; i < COUNT(depth_limits); i++)
        one_name(PAGE_LAYOUT, numbered("offset-minus-1-last-of-depth", depth_limits[i]),
                 plain_but_last(depth_limits[i], (Tuple){9, 2, 0, -1}));
}

/* "line number (u32, any value, repeats allowed)" */
static void line_numbers(void)
{
    static const uint32_t lines[] = {0, 10, 2147483648, 4294967295};
    for (size_t i = 0; i < COUNT(lines); i++) {
        begin();
        add(lines[i], plain_name(1));
        keep(ACCEPTED, "line-%lu", (unsigned long)lines[i]);
    }
    begin();
    for (size_t i = 0; i < 4; i++)
        add(i < 2 ? 5 : 4, rising_name(i));
    keep(ACCEPTED, "lines-repeat-and-fall");
}

/* Every number at its widest: the longest listing that a page of such depths can give. */
static void longest_listing(size_t depth)
{
    const Tuple widest = {65534, 65535, 4294967295, 2147483646};
    Name name = plain_but_last(depth, widest);
    name.tuples[0] = widest;
    for (size_t i = 1; i + 1 < depth; i++)
        name.tuples[i] = high_marker;
    begin();
    for (size_t i = 0; i < SLOT_LIMIT; i++) {
        name.tuples[depth - 1].offset = widest.offset - (int32_t)(SLOT_LIMIT - 1 - i);
        add(4294967295, name);
    }
    keep(ACCEPTED, "longest-listing-of-depth-%zu", depth);
}

static void longest_listings(void)
{
    for (size_t i = 0; i < COUNT(depth_limits); i++)
        longest_listing(depth_limits[i]);
}

/* Names of this depth, and of one less. */
static void neighbours_of_depth(size_t depth)
{
    two_names(PAGE_NOT_RISING, numbered("equal-depth", depth), plain_name(depth), plain_name(depth));
    smaller(numbered("prefix-of-depth", depth - 1), plain_name(depth - 1), plain_name(depth));
    smaller(numbered("last-of", depth), plain_name(depth), plain_but_last(depth, (Tuple){9, 2, 0, 1}));
}

static void neighbours(void)
{
    two_names(PAGE_NOT_RISING, "equal", plain_name(1), plain_name(1));
    smaller("prefix", plain_name(1), plain_name(2));
    smaller("prefix-before-m", NAME(plain), NAME(plain, low_marker, plain));
    smaller("position", NAME({9, 2, 0, 0}), NAME({10, 2, 0, 0}));
    smaller("position-over-a-byte", NAME({255, 2, 0, 0}), NAME({256, 2, 0, 0}));
    smaller("position-unsigned", NAME({32767, 2, 0, 0}), NAME({32768, 2, 0, 0}));
    smaller("node", NAME({9, 2, 0, 0}), NAME({9, 3, 0, 0}));
    smaller("node-over-a-byte", NAME({9, 255, 0, 0}), NAME({9, 256, 0, 0}));
    smaller("node-unsigned", NAME({9, 32767, 0, 0}), NAME({9, 32768, 0, 0}));
    smaller("sequence", NAME({9, 2, 0, 0}), NAME({9, 2, 1, 0}));
    smaller("sequence-over-a-byte", NAME({9, 2, 255, 0}), NAME({9, 2, 256, 0}));
    smaller("sequence-unsigned", NAME({9, 2, 2147483647, 0}), NAME({9, 2, 2147483648, 0}));
    smaller("offset", NAME({9, 2, 0, 0}), NAME({9, 2, 0, 1}));
    smaller("offset-over-a-byte", NAME({9, 2, 0, 255}), NAME({9, 2, 0, 256}));
    smaller("offset-minus-1-below-0", NAME({9, 2, 0, -1}, plain), NAME({9, 2, 0, 0}, plain));
    smaller("offset-minus-1-below-a-prefix", NAME({9, 2, 0, -1}, plain), NAME({9, 2, 0, 0}));
    smaller("offset-minus-1-inside", NAME(plain, {9, 2, 0, -1}, plain), NAME(plain, {9, 2, 0, 2147483646}, plain));
    smaller("position-before-node", NAME({9, 3, 0, 0}), NAME({10, 2, 0, 0}));
    smaller("node-before-sequence", NAME({9, 2, 1, 0}), NAME({9, 3, 0, 0}));
    smaller("sequence-before-offset", NAME({9, 2, 0, 1}), NAME({9, 2, 1, 0}));
    smaller("first-tuple-decides", NAME({9, 2, 0, 0}, {9, 2, 0, 0}), NAME({9, 2, 0, 1}, {8, 1, 0, 0}));
    smaller("greater-though-shorter", NAME({9, 2, 0, 0}, {9, 2, 0, 0}), NAME({9, 2, 0, 1}));
    smaller("m-below-ordinary", NAME(plain, low_marker, plain), NAME(plain, {1, 1, 0, -1}, plain));
    smaller("ordinary-below-M", NAME(plain, {65534, 65535, 4294967295, 2147483646}), NAME(plain, high_marker, plain));
    smaller("m-below-M", NAME(plain, low_marker, plain), NAME(plain, high_marker, plain));
    neighbours_of_depth(OLD_DEPTH_LIMIT);
    neighbours_of_depth(OLD_DEPTH_LIMIT + 1);
    neighbours_of_depth(DEPTH_LIMIT);
}

static void faults_in_long_pages(void)
{
    static const size_t places[] = {0, 127, SLOT_LIMIT - 2};
    for (size_t i = 0; i < COUNT(places); i++) {
        rising_slots(SLOT_LIMIT);
        memcpy(slot_bytes(places[i] + 1) + HEAD_BYTES, slot_bytes(places[i]) + HEAD_BYTES, TUPLE_BYTES);
        keep(PAGE_NOT_RISING, "slot-%zu-is-named-twice-of-256", places[i]);
        rising_slots(SLOT_LIMIT);
        slot_bytes(places[i] + 1)[0] = 0;
        keep(PAGE_LAYOUT, "slot-%zu-has-depth-0-of-256", places[i] + 1);
    }
    /* "a page (its order apart)": any broken slot comes before any pair that does not rise */
    begin();
    add(7, rising_name(1));
    add(8, rising_name(0));
    add(9, rising_name(2));
    slot_bytes(2)[SLOT_BYTES - 1] = 1;
    keep(PAGE_LAYOUT, "not-rising-and-last-slot-broken");
    rising_slots(SLOT_LIMIT);
    memcpy(slot_bytes(1), slot_bytes(0), SLOT_BYTES);
    slot_bytes(SLOT_LIMIT - 1)[0] = DEPTH_LIMIT + 1;
    keep(PAGE_LAYOUT, "not-rising-and-last-slot-broken-of-256");
    begin();
    add(7, NAME({9, 2, 0, -1}));
    add(8, rising_name(1));
    add(9, rising_name(0));
    keep(PAGE_LAYOUT, "first-slot-broken-and-not-rising");
}

/* ---- the random inputs */

/* Few values, so that names touch and nest, among them those at the edges. */
static const uint16_t positions[] = {9, 1, 65534, 256};
static const uint16_t nodes[] = {2, 1, 65535, 255};
static const uint32_t sequences[] = {0, 1, 4294967295, 2147483648};
static const int32_t offsets[] = {0, -1, 1, 2147483646};

/* An ordinary tuple of the first few values of each row. */
static Tuple random_ordinary(size_t few)
{
    Tuple t = {positions[random_below(few)], nodes[random_below(few)], sequences[random_below(few)],
               offsets[random_below(few)]};
    return t;
}

static Name random_name(size_t few, size_t deepest)
{
    Name name = {1 + random_below(deepest), {{0, 0, 0, 0}}};
    for (size_t i = 0; i < name.depth; i++) {
        bool between = 0 < i && i < name.depth - 1;
        if (between && random_below(5) == 0)
            name.tuples[i] = random_below(2) == 0 ? low_marker : high_marker;
        else
            name.tuples[i] = random_ordinary(few);
    }
    if (name.tuples[name.depth - 1].offset < 0)
        name.tuples[name.depth - 1].offset = 0;
    return name;
}

/* A name that shares its first tuples, but not its last, with another one: so it is still a name. */
static Name random_relative(const Name *other, size_t few, size_t deepest)
{
    Name name = random_name(few, deepest);
    size_t shared = random_below(name.depth < other->depth ? name.depth : other->depth);
    memcpy(name.tuples, other->tuples, shared * sizeof *name.tuples);
    return name;
}

static int by_name(const void *a, const void *b)
{
    return compare_names(a, b);
}

static size_t without_repeats(Name *names, size_t count)
{
    size_t kept = 0;
    for (size_t i = 0; i < count; i++)
        if (kept == 0 || compare_names(&names[kept - 1], &names[i]) != 0)
            names[kept++] = names[i];
    return kept;
}

/* A valid page of at most this many slots. */
static void random_page(size_t slots)
{
    static Name names[SLOT_LIMIT];
    size_t few = 1 + random_below(4), deepest = 1 + random_below(DEPTH_LIMIT);
    for (size_t i = 0; i < slots; i++)
        names[i] = i > 0 && random_below(2) == 0 ? random_relative(&names[random_below(i)], few, deepest)
                                                 : random_name(few, deepest);
    qsort(names, slots, sizeof *names, by_name);
    size_t count = without_repeats(names, slots);
    begin();
    for (size_t i = 0; i < count; i++)
        add(random_below(3) == 0 ? (uint32_t)random_below(3) : (uint32_t)random_word(), names[i]);
}

static size_t slot_count(void)
{
    return input_length / SLOT_BYTES;
}

static void damage_byte(void)
{
    size_t slot = random_below(slot_count());
    size_t used = HEAD_BYTES + (size_t)slot_bytes(slot)[0] * TUPLE_BYTES;
    size_t at = random_below(random_below(4) == 0 ? SLOT_BYTES : used);
    slot_bytes(slot)[at] ^= (uint8_t)(1 + random_below(255));
}

/* Sets one number of one tuple to a value at an edge. */
static void damage_number(void)
{
    static const int64_t edges[] = {0, 1, 65534, 65535, -1, -2, 2147483646, 2147483647, INT32_MIN, 4294967295};
    Slot slot;
    size_t at = random_below(slot_count());
    if (!read_slot(slot_bytes(at), &slot))
        return;
    Tuple *t = &slot.name.tuples[random_below(slot.name.depth)];
    int64_t edge = edges[random_below(COUNT(edges))];
    switch (random_below(4)) {
    case 0: t->position = (uint16_t)(edge & 65535); break;
    case 1: t->node = (uint16_t)(edge & 65535); break;
    case 2: t->sequence = (uint32_t)(edge & 4294967295); break;
    default: t->offset = edge > INT32_MAX ? -1 : (int32_t)edge; break;
    }
    write_slot(slot_bytes(at), &slot);
}

static void damage_order(void)
{
    uint8_t held[SLOT_BYTES];
    size_t a = random_below(slot_count()), b = random_below(slot_count());
    memcpy(held, slot_bytes(a), SLOT_BYTES);
    memmove(slot_bytes(a), slot_bytes(b), SLOT_BYTES);
    if (random_below(2) == 0)
        memcpy(slot_bytes(b), held, SLOT_BYTES);
}

/* Cuts the page, or adds zeros to it; every other time by whole slots. */
static void damage_length(void)
{
    size_t length = random_below(input_length + 2 * SLOT_BYTES);
    set_length(random_below(2) == 0 ? length : length - length % SLOT_BYTES);
}

static void random_pages(void)
{
    static const struct {
        const char *label;
        void (*damage)(void);
        int count;
    } kinds[] = {
        {"random-page", NULL, 130},
        {"random-byte", damage_byte, 90},
        {"random-number", damage_number, 90},
        {"random-order", damage_order, 50},
        {"random-length", damage_length, 20}
    };
    for (size_t kind = 0; kind < COUNT(kinds); kind++)
        for (int i = 0; i < kinds[kind].count; i++) {
            random_page(1 + random_below(i % 10 == 0 ? SLOT_LIMIT : 12));
            if (kinds[kind].damage != NULL)
                kinds[kind].damage();
            write_input(kinds[kind].label);
        }
}

int main(int argc, char **argv)
{
    if (argc != 2) {
        fputs("usage: cases DIRECTORY\n", stderr);
        return EXIT_FAILURE;
    }
    directory = argv[1];
    sample();
    lengths();
    old_pages();
    heads();
    fillers();
    markers();
    near_markers();
    ranges();
    line_numbers();
    longest_listings();
    neighbours();
    faults_in_long_pages();
    start_random(20260101);
    random_pages();
    return EXIT_SUCCESS;
}
