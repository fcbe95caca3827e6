/*
 * The part of kagzuvis.c that moves bytes over the two pipes, and starts the program at their other ends.
 */
#include <errno.h>
#include <fcntl.h>
#include <limits.h>
#include <poll.h>
#include <signal.h>
#include <spawn.h>
#include <stdint.h>
#include <stdlib.h>
#include <string.h>
#include <sys/wait.h>
#include <unistd.h>

extern char **environ;

#ifndef PIPE_BUF
#define PIPE_BUF 512
#endif

/* How much is read at once. */
#define PORTION 65536

/* Bytes of which those from `start` to `end` count. */
struct buffer {
    char *bytes;
    size_t start, end, size;
};

struct pipes {
    int reader, writer;
    struct buffer coming, going;
    size_t searched;    /* so many bytes of what has come have no line feed */
    int has_ended;
};

static size_t length_of(const struct buffer *buffer)
{
    return buffer->end - buffer->start;
}

/* Makes room for so many bytes more. */
static int reserve(struct buffer *buffer, size_t more)
{
    size_t length = length_of(buffer), size;
    char *bytes;

    if (buffer->size - buffer->end >= more)
        return 0;
    /* Bytes are moved only where that frees at least as many as it moves. */
    if (buffer->start > 0 && buffer->start >= length) {
        memmove(buffer->bytes, buffer->bytes + buffer->start, length);
        buffer->start = 0;
        buffer->end = length;
        if (buffer->size - buffer->end >= more)
            return 0;
    }
    if (more > SIZE_MAX / 4 || buffer->end > SIZE_MAX / 4) {
        errno = ENOMEM;
        return -1;
    }
    size = 2 * (buffer->end + more);
    bytes = realloc(buffer->bytes, size);
    if (bytes == NULL)
        return -1;
    buffer->bytes = bytes;
    buffer->size = size;
    return 0;
}

/* Writes without the signal that a pipe without a reader brings. */
static ssize_t write_quietly(int to, const char *bytes, size_t length)
{
    sigset_t broken, former, pending;
    ssize_t written;
    int was_pending, number, saved;

    sigemptyset(&broken);
    sigaddset(&broken, SIGPIPE);
    sigemptyset(&pending);
    sigpending(&pending);
    was_pending = sigismember(&pending, SIGPIPE);
    pthread_sigmask(SIG_BLOCK, &broken, &former);
    written = write(to, bytes, length);
    saved = errno;
    if (written < 0 && saved == EPIPE && !was_pending) {
        sigpending(&pending);
        if (sigismember(&pending, SIGPIPE))
            sigwait(&broken, &number);
    }
    pthread_sigmask(SIG_SETMASK, &former, NULL);
    errno = saved;
    return written;
}

/* Waits until the one can be read or the other written, and says which; a descriptor of -1 is left out. */
static int wait_for(int reader, int writer, int ready[2])
{
    struct pollfd ends[2];

    ends[0].fd = reader;
    ends[0].events = POLLIN;
    ends[1].fd = writer;
    ends[1].events = POLLOUT;
    while (poll(ends, 2, -1) < 0)
        if (errno != EINTR)
            return -1;
    if (ready != NULL) {
        ready[0] = ends[0].revents != 0;
        ready[1] = ends[1].revents != 0;
    }
    return 0;
}

/* Writes at most so many bytes of what is to go. */
static int send_some(struct pipes *pipes, size_t most)
{
    struct buffer *going = &pipes->going;
    size_t length = length_of(going);
    ssize_t written = write_quietly(pipes->writer, going->bytes + going->start, length < most ? length : most);

    if (written >= 0) {
        going->start += (size_t)written;
    } else if (errno == EPIPE) {
        /* The kernel has gone; what it has answered can still be read. */
        going->start = going->end;
    } else if (errno == EAGAIN || errno == EWOULDBLOCK) {
        return wait_for(-1, pipes->writer, NULL);
    } else if (errno != EINTR) {
        return -1;
    }
    return 0;
}

/* Reads what has come. */
static int receive_some(struct pipes *pipes)
{
    struct buffer *coming = &pipes->coming;
    ssize_t got;

    if (reserve(coming, PORTION) != 0)
        return -1;
    got = read(pipes->reader, coming->bytes + coming->end, PORTION);
    if (got > 0) {
        coming->end += (size_t)got;
    } else if (got == 0) {
        pipes->has_ended = 1;
    } else if (errno == EAGAIN || errno == EWOULDBLOCK) {
        return wait_for(pipes->reader, -1, NULL);
    } else if (errno != EINTR) {
        return -1;
    }
    return 0;
}

/* Writes or reads something, whichever can be done. So neither waits for the other: a kernel that waits until its answers are read
 * never waits for ever. Where there is one short line alone, which nothing stands before, nothing comes before it is sent. */
static int move(struct pipes *pipes, int is_alone)
{
    int ready[2];

    if (length_of(&pipes->going) == 0)
        return receive_some(pipes);
    if (is_alone && length_of(&pipes->going) <= PIPE_BUF)
        return send_some(pipes, PIPE_BUF);
    if (wait_for(pipes->reader, pipes->writer, ready) != 0)
        return -1;
    if (ready[0] && receive_some(pipes) != 0)
        return -1;
    /* What is ready takes so many bytes at once without waiting. */
    return ready[1] && !pipes->has_ended ? send_some(pipes, PIPE_BUF) : 0;
}

/* Sends all but at most so many bytes. */
static int send_down_to(struct pipes *pipes, size_t most, int is_alone)
{
    while (length_of(&pipes->going) > most && !pipes->has_ended)
        if (move(pipes, is_alone) != 0)
            return -1;
    return 0;
}

/* Finds the next line that comes, once all is sent. Its line feed is at `end`. Returns 1, or 0 at the end of all, or -1. */
static int next_line(struct pipes *pipes, int is_alone, char **start, char **end)
{
    struct buffer *coming = &pipes->coming;

    if (send_down_to(pipes, 0, is_alone) != 0)
        return -1;
    for (;;) {
        size_t length = length_of(coming);
        char *found = NULL;
        if (length > pipes->searched)
            found = memchr(coming->bytes + coming->start + pipes->searched, '\n', length - pipes->searched);
        if (found != NULL) {
            *start = coming->bytes + coming->start;
            *end = found;
            coming->start += (size_t)(found - *start) + 1;
            pipes->searched = 0;
            return 1;
        }
        pipes->searched = length;
        if (pipes->has_ended)
            return 0;
        if (receive_some(pipes) != 0)
            return -1;
    }
}

static void free_pipes(struct pipes *pipes)
{
    free(pipes->coming.bytes);
    free(pipes->going.bytes);
}

/* ---- The program ---- */

static void close_both(const int ends[2])
{
    int saved = errno;

    if (ends[0] >= 0)
        close(ends[0]);
    if (ends[1] >= 0)
        close(ends[1]);
    errno = saved;
}

/* Makes a pipe of which no program that is started has an end by accident, nor a standard stream of this one. */
static int make_pipe(int ends[2])
{
    int raw[2];

    ends[0] = ends[1] = -1;
    if (pipe(raw) != 0)
        return -1;
    ends[0] = fcntl(raw[0], F_DUPFD_CLOEXEC, 3);
    ends[1] = ends[0] < 0 ? -1 : fcntl(raw[1], F_DUPFD_CLOEXEC, 3);
    close_both(raw);
    if (ends[1] >= 0)
        return 0;
    close_both(ends);
    ends[0] = -1;
    return -1;
}

/* Starts a program with these words, its standard input and output on two pipes. */
static pid_t spawn_on(const int to_program[2], const int from_program[2], char *const words[])
{
    posix_spawn_file_actions_t actions;
    pid_t child = -1;
    int error = posix_spawn_file_actions_init(&actions);

    if (error != 0) {
        errno = error;
        return -1;
    }
    error = posix_spawn_file_actions_adddup2(&actions, to_program[0], 0);
    if (error == 0)
        error = posix_spawn_file_actions_adddup2(&actions, from_program[1], 1);
    if (error == 0)
        error = posix_spawn(&child, words[0], &actions, NULL, words, environ);
    posix_spawn_file_actions_destroy(&actions);
    errno = error;
    return error == 0 ? child : -1;
}

/* Starts a program, and keeps the other ends of its pipes. */
static pid_t start_program(struct pipes *pipes, char *const words[])
{
    int to_program[2], from_program[2];
    pid_t child;

    if (make_pipe(to_program) != 0)
        return -1;
    if (make_pipe(from_program) != 0) {
        close_both(to_program);
        return -1;
    }
    child = spawn_on(to_program, from_program, words);
    pipes->writer = to_program[1];
    pipes->reader = from_program[0];
    to_program[1] = from_program[0] = -1;
    close_both(to_program);
    close_both(from_program);
    if (child < 0) {
        const int kept[2] = {pipes->reader, pipes->writer};
        close_both(kept);
    }
    return child;
}

/* Waits for a program's end: its status, negative for a signal. */
static int wait_for_program(pid_t child, int *ended)
{
    int status;

    while (waitpid(child, &status, 0) < 0)
        if (errno != EINTR)
            return -1;
    *ended = WIFEXITED(status) ? WEXITSTATUS(status) : WIFSIGNALED(status) ? -WTERMSIG(status) : -1;
    return 0;
}
