/* Starts a program whose standard input isn't ready: it comes through a pipe that doesn't block, the first half of a file at once and
 * the second half when the program has ended without it, or ten seconds later. On a busy machine it may be slow to ask.
 *   halting FILE PROGRAM [ARGUMENT...] */
#define _DEFAULT_SOURCE
#include <fcntl.h>
#include <stdio.h>
#include <stdlib.h>
#include <sys/wait.h>
#include <unistd.h>

static void need(int good, const char *what)
{
    if (!good) {
        perror(what);
        exit(2);
    }
}

static void start(int input, char **program)
{
    need(fcntl(input, F_SETFL, O_NONBLOCK) == 0 && dup2(input, 0) == 0, "halting");
    execvp(program[0], program);
    need(0, program[0]);
}

int main(int count, char **words)
{
    static char text[1 << 15];
    int ends[2], status, ended = 0;
    if (count < 3) {
        fprintf(stderr, "usage: halting FILE PROGRAM [ARGUMENT...]\n");
        return 2;
    }
    FILE *file = fopen(words[1], "rb");
    need(file != NULL, words[1]);
    size_t length = fread(text, 1, sizeof text, file);
    need(pipe(ends) == 0 && write(ends[1], text, length / 2) == (ssize_t)(length / 2), "halting");
    pid_t child = fork();
    need(child >= 0, "halting");
    if (child == 0) {
        close(ends[1]);
        start(ends[0], words + 2);
    }
    usleep(500000);
    for (int waited = 0; waited < 95 && !ended; waited++) {
        usleep(100000);
        ended = waitpid(child, &status, WNOHANG) == child;
    }
    /* Nobody need be reading by now. */
    if (write(ends[1], text + length / 2, length - length / 2) < 0)
        perror("halting");
    close(ends[1]);
    close(ends[0]);
    need(ended || waitpid(child, &status, 0) == child, "halting");
    return WIFEXITED(status) ? WEXITSTATUS(status) : 1;
}
