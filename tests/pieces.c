/*
 * Runs heaplog with an eye on its writes, and prints a line for each check: ok or FAILED.
 *   pieces SCRIPT OUTPUT COMMAND..
 * First on SCRIPT, whose output goes to the file OUTPUT: a socket keeps the bounds of what is written at once, so that every write is counted. Then with a
 * pipe that is held open: each line has its answer before the next one is written.
 */
#define _POSIX_C_SOURCE 200809L
#include <fcntl.h>
#include <poll.h>
#include <stdio.h>
#include <stdlib.h>
#include <string.h>
#include <sys/socket.h>
#include <sys/stat.h>
#include <sys/wait.h>
#include <unistd.h>

enum { PIECE = 4096, PATIENCE_MS = 20000 };

static _Noreturn void broken(const char *what)
{
    perror(what);
    exit(2);
}

static pid_t start(char **command, int in, int out, int other)
{
    pid_t child = fork();
    if (child < 0)
        broken("fork");
    if (child == 0) {
        close(other);
        if (dup2(in, 0) < 0 || dup2(out, 1) < 0)
            broken("dup2");
        execvp(command[0], command);
        broken(command[0]);
    }
    close(in);
    close(out);
    return child;
}

static int ended_well(pid_t child)
{
    int status;
    return waitpid(child, &status, 0) == child && WIFEXITED(status) && WEXITSTATUS(status) == 0;
}

static int count_writes(const char *script, const char *output, char **command)
{
    static char written[1 << 18];
    int ends[2];
    struct stat about;
    int in = open(script, O_RDONLY);
    int kept = open(output, O_WRONLY | O_CREAT | O_TRUNC, 0666);
    if (in < 0 || kept < 0 || fstat(in, &about) < 0)
        broken(script);
    if (socketpair(AF_UNIX, SOCK_SEQPACKET, 0, ends) < 0)
        broken("socketpair");
    pid_t child = start(command, in, ends[1], ends[0]);
    long writes = 0;
    ssize_t n;
    while ((n = recv(ends[0], written, sizeof written, 0)) > 0) {
        writes += 1;
        if (write(kept, written, (size_t)n) != n)
            broken(output);
    }
    long most = 1 + (about.st_size + PIECE - 1) / PIECE;
    int good = ended_well(child) && writes <= most;
    printf("%s a script of %ld bytes: %ld writes, the header's and at most one for each %d bytes\n", good ? "ok" : "FAILED", (long)about.st_size, writes, PIECE);
    close(kept);
    close(ends[0]);
    return good;
}

/* answered: whether a line of output comes while nothing more is written */
static int answered(int out)
{
    char byte = 0;
    struct pollfd wait = {.fd = out, .events = POLLIN};
    while (byte != '\n')
        if (poll(&wait, 1, PATIENCE_MS) != 1 || read(out, &byte, 1) != 1)
            return 0;
    return 1;
}

static int answer_each(char **command)
{
    static const char *const lines[] = {"A 256\n", "G 24\n", "Z 16 40\n", "R 48\n", "S\n"};
    size_t all = sizeof lines / sizeof *lines;
    int script[2], output[2];
    if (pipe(script) < 0 || pipe(output) < 0)
        broken("pipe");
    if (fcntl(output[0], F_SETFD, FD_CLOEXEC) < 0)
        broken("fcntl");
    pid_t child = start(command, script[0], output[1], script[1]);
    size_t done = 0;
    int good = answered(output[0]);
    while (good && done < all) {
        size_t length = strlen(lines[done]);
        good = write(script[1], lines[done], length) == (ssize_t)length && answered(output[0]);
        done += good ? 1 : 0;
    }
    close(script[1]);
    close(output[0]);
    good = good && ended_well(child);
    printf("%s a pipe that is held open: the header at once, and %zu of %zu lines answered before the next\n", good ? "ok" : "FAILED", done, all);
    return good;
}

int main(int argc, char **argv)
{
    if (argc < 4) {
        fprintf(stderr, "pieces: give a script, a file for its output, and the command to run\n");
        return 2;
    }
    int counted = count_writes(argv[1], argv[2], argv + 3);
    fflush(stdout);
    return counted & answer_each(argv + 3) ? 0 : 1;
}
