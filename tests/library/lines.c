/*
 * lines SUBJECT: runs the lines of text about books, old_pages, epochs, messages or groups that stand on standard input, each
 * against the plain C, and writes each again with what came back. Fails if the library and the plain C differ in anything. A
 * line that begins with '#' is a title.
 */
#include "lines.h"

#include <stdio.h>
#include <stdlib.h>
#include <string.h>

#include "bytes.h"

enum { LONGEST_LINE = 16384 };

/* ---- reading a line */

/* What is left of the line; reading goes on from here. */
static const char *rest;

int64_t read_number(void)
{
    char *end;
    int64_t number = strtoll(rest, &end, 10);
    rest = *end == '\0' ? end : end + 1;
    return number;
}

char last_passed(void)
{
    return rest[-1];
}

void read_hex(Bytes *bytes)
{
    bytes->length = 0;
    while (!line_ended()) {
        char digits[] = {rest[0], rest[1], '\0'};
        bytes->bytes[bytes->length++] = (uint8_t)strtoul(digits, NULL, 16);
        rest += 2;
        rest += strspn(rest, " ");
    }
}

bool line_ended(void)
{
    return *rest == '\0';
}

static Tuple read_line_tuple(void)
{
    Tuple t;
    t.position = (uint16_t)read_number();
    t.node = (uint16_t)read_number();
    t.sequence = (uint32_t)read_number();
    t.offset = (int32_t)read_number();
    return t;
}

Name read_name(void)
{
    Name name = {0, {{0, 0, 0, 0}}};
    do {
        Tuple t = read_line_tuple();
        for (int64_t times = last_passed() == '*' ? read_number() : 1; times > 0 && name.depth < DEPTH_LIMIT; times--)
            name.tuples[name.depth++] = t;
    } while (last_passed() == '/' && name.depth < DEPTH_LIMIT);
    return name;
}

void read_given_slot(Bytes *slot, uint32_t line)
{
    Name name = read_name();
    slot->length = 0;
    add_slot(slot, line, &name);
}

void read_book(Bytes *page)
{
    page->length = 0;
    for (uint32_t line = 1; !line_ended(); line++) {
        Name name = read_name();
        add_slot(page, line, &name);
    }
}

void read_names(Bytes *log, size_t most, uint32_t line)
{
    log->length = 0;
    for (size_t i = 0; !line_ended() && i < most; i++) {
        Name name = read_name();
        add_slot(log, line, &name);
    }
}

size_t read_size(void)
{
    size_t size = (size_t)read_number();
    if (last_passed() != 's' && last_passed() != 'o')
        return size;
    size *= last_passed() == 's' ? SLOT_BYTES : OLD_SLOT_BYTES;
    if (*rest == '+' || *rest == '-')
        size += (size_t)read_number();
    else if (!line_ended())
        rest++;
    return size;
}

size_t read_room(void)
{
    size_t room = read_size();
    return room <= MOST_ROOM ? room : MOST_ROOM;
}

void say(Outcome outcome)
{
    printf(": %d %zu\n", outcome.answer, outcome.count);
}

/* ---- lines */

static void run_line(const char *line, const LineKind *kinds)
{
    fputs(line, stdout);
    if (line[0] == '#') {
        putchar('\n');
        return;
    }
    size_t word = strcspn(line, " ");
    rest = line[word] == '\0' ? line + word : line + word + 1;
    for (; kinds->word != NULL; kinds++)
        if (strlen(kinds->word) == word && strncmp(kinds->word, line, word) == 0) {
            kinds->run();
            return;
        }
    fprintf(stderr, "lines: what is this line? %s\n", line);
    exit(EXIT_FAILURE);
}

static const LineKind *kinds_of(const char *subject)
{
    if (strcmp(subject, "books") == 0)
        return book_lines;
    if (strcmp(subject, "old_pages") == 0)
        return old_page_lines;
    if (strcmp(subject, "epochs") == 0)
        return epoch_lines;
    if (strcmp(subject, "messages") == 0)
        return message_lines;
    if (strcmp(subject, "groups") == 0)
        return group_lines;
    fprintf(stderr, "lines: what are %s?\n", subject);
    exit(EXIT_FAILURE);
}

int main(int argc, char **argv)
{
    static char line[LONGEST_LINE];
    if (argc != 2) {
        fputs("usage: lines SUBJECT\n", stderr);
        return EXIT_FAILURE;
    }
    const LineKind *kinds = kinds_of(argv[1]);
    while (fgets(line, sizeof line, stdin) != NULL) {
        line[strcspn(line, "\n")] = '\0';
        run_line(line, kinds);
    }
    bool read_and_written = !ferror(stdin) && fflush(stdout) == 0;
    return read_and_written && differences_found() == 0 ? EXIT_SUCCESS : EXIT_FAILURE;
}
