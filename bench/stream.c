/*
 * What a line of a stream costs a client that waits for each answer and one that sends ahead, beside the same lines as a script and
 * the same calls of the machine's own kernel.
 *
 * usage: stream PROGRAM FOLDER [ROUNDS]
 *
 * PROGRAM is txsh as it was built, FOLDER an empty one that lies on tmpfs. A round is seven lines on a name of its own: a directory is
 * made and looked at, a file in it is made, written (64 bytes), closed and unlinked, and the directory is removed. Each way is
 * taken five times, by turns, from the start of its program to its end; the least time counts.
 */
#define _POSIX_C_SOURCE 200809L
#include "kagzuvis.h"

#include <fcntl.h>
#include <stdlib.h>
#include <string.h>
#include <sys/stat.h>
#include <sys/wait.h>
#include <time.h>
#include <unistd.h>

enum { TURNS = 5, LINES = 7, MOST_ROUNDS = 5000, WAYS = 4 };

static const char content[] = "0123456789abcdef0123456789abcdef0123456789abcdef0123456789abcdef";
static const char *program, *folder;
static unsigned rounds = MOST_ROUNDS;

static void fail(const char *what)
{
    perror(what);
    exit(1);
}

static void must(int is_well, const char *what)
{
    if (!is_well)
        fail(what);
}

static double seconds(void)
{
    struct timespec now;

    clock_gettime(CLOCK_MONOTONIC, &now);
    return (double)now.tv_sec + (double)now.tv_nsec / 1e9;
}

/* The i-th name: they come in no order, as in crates/bench. */
static unsigned long name_of(unsigned i)
{
    return i * 648055UL % 1048576;
}

/* Puts a line of a round. */
static void set_line(char line[128], unsigned round, int index)
{
    unsigned long name = name_of(round);

    switch (index) {
    case 0: snprintf(line, 128, "1 mkdir /n%07lu", name); break;
    case 1: snprintf(line, 128, "1 stat /n%07lu", name); break;
    case 2: snprintf(line, 128, "1 open /n%07lu/f WRONLY,CREAT", name); break;
    case 3: snprintf(line, 128, "1 write 0 %s", content); break;
    case 4: snprintf(line, 128, "1 close 0"); break;
    case 5: snprintf(line, 128, "1 unlink /n%07lu/f", name); break;
    default: snprintf(line, 128, "1 rmdir /n%07lu", name); break;
    }
}

/* ---- The ways ---- */

static kagzuvis *start(void)
{
    kagzuvis *kernel = kagzuvis_start(program, NULL);

    must(kernel != NULL, program);
    return kernel;
}

static void stop(kagzuvis *kernel)
{
    struct kagzuvis_end end;

    must(kagzuvis_stop(kernel, &end) == 0 && end.status == 0, "the end of the program");
}

static void do_round(kagzuvis *kernel, unsigned round)
{
    struct kagzuvis_stat stat;
    char path[16], file[20];
    int is_well;

    snprintf(path, sizeof path, "/n%07lu", name_of(round));
    snprintf(file, sizeof file, "%s/f", path);
    is_well = kagzuvis_mkdir(kernel, 1, path) == 0 && kagzuvis_stat(kernel, 1, path, &stat) == 0 &&
              kagzuvis_open(kernel, 1, file, KAGZUVIS_WRONLY | KAGZUVIS_CREAT) == 0 &&
              kagzuvis_write(kernel, 1, 0, content, 64) == 64 && kagzuvis_close(kernel, 1, 0) == 0 &&
              kagzuvis_unlink(kernel, 1, file) == 0 && kagzuvis_rmdir(kernel, 1, path) == 0;
    must(is_well, "a call of a client that waits");
}

static void wait_for_each(void)
{
    kagzuvis *kernel = start();
    unsigned round;

    for (round = 0; round < rounds; round++)
        do_round(kernel, round);
    stop(kernel);
}

static void send_ahead(void)
{
    kagzuvis *kernel = start();
    char line[128];
    unsigned round;
    int index;

    for (round = 0; round < rounds; round++)
        for (index = 0; index < LINES; index++) {
            set_line(line, round, index);
            must(kagzuvis_send(kernel, line) == 0, "a line that is sent ahead");
        }
    for (round = 0; round < rounds * LINES; round++)
        must(kagzuvis_receive(kernel) == 0, "an answer to a line that was sent ahead");
    stop(kernel);
}

/* Runs the script with its schedule, and reads the transcript. */
static void run_script(void)
{
    static char schedule[2 * LINES * MOST_ROUNDS + 1];
    char part[65536];
    size_t at, lines = 0;
    int ends[2], status;
    ssize_t got;
    pid_t child;

    for (at = 0; at < rounds * LINES; at++)
        memcpy(schedule + 2 * at, "1,", 2);
    schedule[2 * at - 1] = '\0';
    must(pipe(ends) == 0, "pipe");
    child = fork();
    must(child >= 0, "fork");
    if (child == 0) {
        dup2(ends[1], 1);
        close(ends[0]);
        close(ends[1]);
        execl(program, program, "--schedule", schedule, "script", (char *)NULL);
        _exit(127);
    }
    close(ends[1]);
    while ((got = read(ends[0], part, sizeof part)) > 0)
        for (at = 0; at < (size_t)got; at++)
            lines += part[at] == '\n';
    close(ends[0]);
    must(waitpid(child, &status, 0) == child && status == 0 && lines == rounds * LINES, "txsh --schedule");
}

static void make_system_calls(void)
{
    char path[16], file[20];
    struct stat found;
    unsigned round;

    for (round = 0; round < rounds; round++) {
        int fd;
        snprintf(path, sizeof path, "n%07lu", name_of(round));
        snprintf(file, sizeof file, "%s/f", path);
        must(mkdir(path, 0755) == 0 && stat(path, &found) == 0, "mkdir and stat");
        fd = open(file, O_WRONLY | O_CREAT, 0644);
        must(fd >= 0 && write(fd, content, 64) == 64 && close(fd) == 0, "open, write and close");
        must(unlink(file) == 0 && rmdir(path) == 0, "unlink and rmdir");
    }
}

/* ---- The table ---- */

static const struct {
    const char *name;
    void (*run)(void);
} ways[WAYS] = {
    {"txsh --schedule, the lines as a script", run_script},
    {"txsh --stream, a client that sends ahead", send_ahead},
    {"txsh --stream, a client that waits for each answer", wait_for_each},
    {"the same by system calls in the folder", make_system_calls},
};

static void write_script(void)
{
    FILE *script = fopen("script", "w");
    char line[128];
    unsigned round;
    int index;

    must(script != NULL, "script");
    fputs("priorities 0\n", script);
    for (round = 0; round < rounds; round++)
        for (index = 0; index < LINES; index++) {
            set_line(line, round, index);
            fprintf(script, "%s\n", line);
        }
    must(fclose(script) == 0, "script");
}

static void print_table(const double least[WAYS])
{
    double lines = (double)rounds * LINES;
    int way;

    printf("| %.0f lines | lines a second | microseconds a line | to --schedule |\n|---|---|---|---|\n", lines);
    for (way = 0; way < WAYS; way++)
        printf("| %s | %.0f | %.2f | %.2f |\n", ways[way].name, lines / least[way], least[way] / lines * 1e6, least[0] / least[way]);
    printf("Wanted: the client that sends ahead does at least 0.8 of the lines a second of --schedule.\n");
}

int main(int argc, char **argv)
{
    double least[WAYS] = {0};
    int turn, way;

    if (argc < 3 || argc > 4) {
        fprintf(stderr, "usage: stream PROGRAM FOLDER [ROUNDS]\n");
        return 2;
    }
    program = argv[1];
    folder = argv[2];
    if (argc == 4)
        rounds = (unsigned)strtoul(argv[3], NULL, 10);
    if (rounds < 1 || rounds > MOST_ROUNDS) {
        fprintf(stderr, "stream: ROUNDS is from 1 to %d: a script has at most 1,048,576 bytes\n", MOST_ROUNDS);
        return 2;
    }
    must(chdir(folder) == 0, folder);
    write_script();
    for (turn = 0; turn < TURNS; turn++)
        for (way = 0; way < WAYS; way++) {
            double begin = seconds(), took;
            ways[way].run();
            took = seconds() - begin;
            if (turn == 0 || took < least[way])
                least[way] = took;
        }
    must(unlink("script") == 0, "script");
    print_table(least);
    return 0;
}
