/*
 * feeder COUNT FILE: writes a file to standard output, a pipe, COUNT bytes at a time. It pauses after each piece until
 * the reader has taken it, so that each read gets one piece and no more.
 */
#define _POSIX_C_SOURCE 200809L

#include <errno.h>
#include <poll.h>
#include <signal.h>
#include <stdbool.h>
#include <stdio.h>
#include <stdlib.h>
#include <sys/ioctl.h>
#include <time.h>
#include <unistd.h>

enum { PAUSE_NANOSECONDS = 20000, PAUSES = 100000 };

static bool reader_left(void)
{
    struct pollfd end = {STDOUT_FILENO, 0, 0};
    return poll(&end, 1, 0) == 1 && (end.revents & POLLERR) != 0;
}

static bool piece_taken(void)
{
    int waiting = 0;
    return ioctl(STDOUT_FILENO, FIONREAD, &waiting) != 0 || waiting == 0;
}

/* Gives up after some seconds: a reader that takes no more must not hold the test up. */
static void pause_until_taken(void)
{
    const struct timespec pause = {0, PAUSE_NANOSECONDS};
    for (int i = 0; i < PAUSES && !piece_taken() && !reader_left(); i++)
        nanosleep(&pause, NULL);
}

/* False where the reader has left: a listing may stop reading once the input is too long for a page. */
static bool write_piece(const char *piece, size_t length)
{
    while (length > 0) {
        ssize_t wrote = write(STDOUT_FILENO, piece, length);
        if (wrote < 0 && errno == EPIPE)
            return false;
        if (wrote < 0) {
            perror("feeder");
            exit(EXIT_FAILURE);
        }
        piece += wrote;
        length -= (size_t)wrote;
    }
    return true;
}

int main(int argc, char **argv)
{
    size_t count = argc == 3 ? strtoul(argv[1], NULL, 10) : 0;
    char piece[4096];
    if (count < 1 || count > sizeof piece) {
        fputs("usage: feeder COUNT FILE, the count 1 to 4096\n", stderr);
        return EXIT_FAILURE;
    }
    FILE *book = fopen(argv[2], "rb");
    if (book == NULL) {
        perror(argv[2]);
        return EXIT_FAILURE;
    }
    signal(SIGPIPE, SIG_IGN);
    size_t got;
    while ((got = fread(piece, 1, count, book)) > 0 && write_piece(piece, got))
        pause_until_taken();
    fclose(book);
    return EXIT_SUCCESS;
}
