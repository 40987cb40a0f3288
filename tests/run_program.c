#define _GNU_SOURCE /* F_SETPIPE_SZ */
#include "run_program.h"

#include <errno.h>
#include <fcntl.h>
#include <poll.h>
#include <signal.h>
#include <stdio.h>
#include <stdlib.h>
#include <sys/ioctl.h>
#include <sys/wait.h>
#include <unistd.h>

/* A program that waits for ever is ended after so many seconds; one that does nothing with a piece
 * for so many milliseconds is late. */
enum { LONGEST = 20, LATE = 10000, CANNOT_RUN = 127 };

/* Our ends of the pipes to the program's standard input and from its standard output, and what has
 * gone through them. */
struct talk {
    int in, out;
    int unread_end; /* the program's end of the first pipe: what can be read there was not read */
    const uint8_t *input;
    size_t given;
    char *written;
    size_t room, len;
    int ended; /* no more is written, or more than there is room for */
};

static void need(int ok, const char *what)
{
    if (!ok) {
        perror(what);
        exit(2);
    }
}

static void become(const char *path, int in, int out)
{
    char *const arguments[2] = {(char *)path, NULL};
    dup2(in, STDIN_FILENO);
    dup2(out, STDOUT_FILENO);
    signal(SIGPIPE, SIG_DFL);
    alarm(LONGEST);
    execv(path, arguments);
    perror(path);
    _exit(CANNOT_RUN);
}

/* ---- both pipes at once: no read or write waits, since the program may wait at the other pipe */

static size_t moved(ssize_t count, const char *what)
{
    need(count >= 0 || errno == EAGAIN, what);
    return count > 0 ? (size_t)count : 0;
}

/* More of the input up to end, as far as the pipe has room. */
static void give(struct talk *t, size_t end)
{
    if (t->given < end)
        t->given += moved(write(t->in, t->input + t->given, end - t->given), "write");
}

/* What was written since; of what there is no room for, one byte. */
static void take(struct talk *t)
{
    char more;
    ssize_t count = t->len < t->room ? read(t->out, t->written + t->len, t->room - t->len) : read(t->out, &more, 1);
    t->len += moved(count, "read");
    t->ended = count == 0 || t->len > t->room;
}

static size_t unread(const struct talk *t)
{
    int left;
    need(ioctl(t->unread_end, FIONREAD, &left) == 0, "ioctl");
    return (size_t)left;
}

/* Until the program has written or ended or, if asked for, the first pipe takes more; 0 if it is
 * late. */
static int wait_for(const struct talk *t, int or_room)
{
    struct pollfd ends[2] = {{.fd = t->out, .events = POLLIN}, {.fd = t->in, .events = POLLOUT}};
    int ready = poll(ends, or_room ? 2 : 1, LATE);
    need(ready >= 0, "poll");
    return ready > 0;
}

/* Until the program has taken the piece and written what is due, or has ended; 0 if it is late. */
static int give_piece(struct talk *t, const struct piece *piece)
{
    for (;;) {
        give(t, piece->end);
        take(t);
        size_t left = unread(t);
        if (t->ended || (t->given >= piece->end && left == 0 && t->len >= piece->due))
            return 1;
        if (!wait_for(t, t->given < piece->end || left > 0))
            return 0;
    }
}

/* The rest of the input and its end. */
static void give_rest(struct talk *t, size_t len)
{
    while (t->given < len && !t->ended) {
        give(t, len);
        take(t);
        if (t->given < len && !t->ended)
            wait_for(t, 1);
    }
    close(t->in);
    while (!t->ended) {
        wait_for(t, 0);
        take(t);
    }
    close(t->out);
}

/* ---- runs */

/* A pipe of one page takes more only when it is empty: that it does so tells that a piece was taken. */
static pid_t start(const char *path, struct talk *t, int in_pieces)
{
    int in[2], out[2];
    signal(SIGPIPE, SIG_IGN);
    need(pipe(in) == 0 && pipe(out) == 0, "pipe");
    need(fcntl(in[1], F_SETFL, O_NONBLOCK) == 0 && fcntl(out[0], F_SETFL, O_NONBLOCK) == 0, "fcntl");
    need(!in_pieces || fcntl(in[1], F_SETPIPE_SZ, 1) >= 0, "fcntl");
    fflush(NULL);
    pid_t child = fork();
    need(child >= 0, "fork");
    if (child == 0) {
        close(in[1]);
        close(out[0]);
        become(path, in[0], out[1]);
    }
    close(out[1]);
    t->in = in[1];
    t->unread_end = in[0];
    t->out = out[0];
    return child;
}

struct run run_in_pieces(const char *path, const uint8_t *input, size_t len, const struct piece *pieces, size_t count,
                         char *out, size_t room)
{
    int status;
    struct talk t = {.input = input, .written = out, .room = room};
    struct run run = {0};
    pid_t child = start(path, &t, count > 0);
    for (size_t i = 0; i < count && !t.ended && !run.late; i++)
        run.late = !give_piece(&t, &pieces[i]);
    give_rest(&t, len);
    need(waitpid(child, &status, 0) == child, "waitpid");
    run.status = WIFEXITED(status) ? WEXITSTATUS(status) : 256 + WTERMSIG(status);
    if (run.status == CANNOT_RUN)
        exit(2);
    run.len = t.len;
    run.taken = t.given - unread(&t);
    close(t.unread_end);
    return run;
}

struct run run_program(const char *path, const uint8_t *input, size_t len, size_t first, char *out, size_t room)
{
    const struct piece piece = {first, 0};
    return run_in_pieces(path, input, len, &piece, first > 0, out, room);
}
