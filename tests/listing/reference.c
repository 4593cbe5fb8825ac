/* reference FILE: writes the listing of a book by the plain C of tests/reference. */
#include "../reference/listing.h"

#include <stdlib.h>

static void fail(const char *what)
{
    perror(what);
    exit(EXIT_FAILURE);
}

/* All bytes of a file, however long: what is too long for a page is for the listing to say. */
static uint8_t *read_whole(const char *path, size_t *length)
{
    FILE *file = fopen(path, "rb");
    if (file == NULL)
        fail(path);
    uint8_t *bytes = NULL;
    size_t room = 0, got = 0;
    do {
        room += 65536;
        bytes = realloc(bytes, room);
        if (bytes == NULL)
            fail("realloc");
        got += fread(bytes + got, 1, room - got, file);
    } while (got == room);
    if (ferror(file))
        fail(path);
    fclose(file);
    *length = got;
    return bytes;
}

int main(int argc, char **argv)
{
    if (argc != 2) {
        fputs("usage: reference FILE\n", stderr);
        return EXIT_FAILURE;
    }
    size_t length;
    uint8_t *bytes = read_whole(argv[1], &length);
    list_page(bytes, length, stdout);
    free(bytes);
    if (fflush(stdout) != 0)
        fail("stdout");
    return EXIT_SUCCESS;
}
