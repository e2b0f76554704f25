/* Feeds a program through a pipe, piece by piece, so that each of its reads
 * returns one piece.
 *
 *   feed LENGTHS INPUT PROGRAM ..   pieces of these lengths in turn, as 1,8,8
 *   feed reads                      a program that prints how many bytes each of
 *                                   its reads returned, one a line
 *
 * The pipe is in packet mode: a piece is written as one packet, and a read returns
 * one packet, never bytes of two. (In a plain pipe the pieces join before the
 * reader comes.) On standard error: how many pieces ended inside a record with
 * more to come, at the places 1 to 7 of a record. Exit status: the program's. */
#define _GNU_SOURCE
#include <fcntl.h>
#include <signal.h>
#include <stdint.h>
#include <stdio.h>
#include <stdlib.h>
#include <string.h>
#include <sys/wait.h>
#include <unistd.h>

enum { RECORD = 8, LENGTHS = 16, PACKET = 4096, MOST = 1 << 20 };

static unsigned long cuts[RECORD];

static void must(int went_well, const char *what)
{
    if (went_well)
        return;
    perror(what);
    exit(2);
}

static unsigned read_lengths(char *text, size_t lengths[LENGTHS])
{
    unsigned n = 0;
    for (char *part = strtok(text, ","); part != NULL && n < LENGTHS; part = strtok(NULL, ",")) {
        lengths[n] = strtoul(part, NULL, 10);
        must(lengths[n] > 0 && lengths[n] <= PACKET, "feed: length");
        n++;
    }
    must(n > 0, "feed: lengths");
    return n;
}

static size_t read_input(const char *path, uint8_t *bytes)
{
    FILE *f = fopen(path, "rb");
    must(f != NULL, path);
    size_t len = fread(bytes, 1, MOST, f);
    must(len < MOST && !ferror(f), path);
    fclose(f);
    return len;
}

static pid_t start(char **program, const int ends[2])
{
    pid_t reader = fork();
    must(reader >= 0, "feed: fork");
    if (reader == 0) {
        dup2(ends[0], 0);
        close(ends[0]);
        close(ends[1]);
        execvp(program[0], program);
        perror(program[0]);
        _exit(2);
    }
    close(ends[0]);
    return reader;
}

static int feed(const size_t *lengths, unsigned n, const uint8_t *bytes, size_t len, char **program)
{
    int ends[2], status = 0;
    must(pipe2(ends, O_DIRECT) == 0, "feed: a pipe of packets");
    pid_t reader = start(program, ends);
    size_t at = 0, piece;
    for (unsigned i = 0; at < len; i++, at += piece) {
        piece = lengths[i % n] < len - at ? lengths[i % n] : len - at;
        if (write(ends[1], bytes + at, piece) != (ssize_t)piece)
            break;                      /* the reader has ended */
        if ((at + piece) % RECORD != 0 && at + piece < len)
            cuts[(at + piece) % RECORD]++;
    }
    close(ends[1]);
    must(waitpid(reader, &status, 0) == reader, "feed: wait");
    return at == len && WIFEXITED(status) ? WEXITSTATUS(status) : 1;
}

static int print_reads(void)
{
    uint8_t bytes[PACKET];
    ssize_t got;
    while ((got = read(0, bytes, sizeof bytes)) > 0)
        printf("%ld\n", (long)got);
    return got < 0;
}

int main(int argc, char **argv)
{
    static uint8_t bytes[MOST];
    size_t lengths[LENGTHS];
    if (argc == 2 && strcmp(argv[1], "reads") == 0)
        return print_reads();
    if (argc < 4)
        return 2;
    signal(SIGPIPE, SIG_IGN);
    unsigned n = read_lengths(argv[1], lengths);
    int status = feed(lengths, n, bytes, read_input(argv[2], bytes), argv + 3);
    for (unsigned i = 1; i < RECORD; i++)
        fprintf(stderr, "%s%lu", i == 1 ? "" : " ", cuts[i]);
    fprintf(stderr, "\n");
    return status;
}
