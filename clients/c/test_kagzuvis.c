/*
 * Tests of the client in C, on a program that is given.
 *
 * usage: test_kagzuvis PROGRAM
 */
#define _POSIX_C_SOURCE 200809L
#include "kagzuvis.h"

#include <errno.h>
#include <stdlib.h>
#include <string.h>
#include <unistd.h>

static const char *program;
static int failures;

#define CHECK(test) check(test, #test, __LINE__)
/* The call fails, for this reason. */
#define FAILS(kernel, name, call) check((call) == -1 && has_failed(kernel, name), #call " fails as " name, __LINE__)

static void check(int is_well, const char *what, int line)
{
    if (is_well)
        return;
    printf("test_kagzuvis.c:%d: not so: %s\n", line, what);
    failures++;
}

static int has_failed(const kagzuvis *kernel, const char *name)
{
    const char *found = kagzuvis_error_name(kagzuvis_last(kernel)->error);

    if (strcmp(found, name) == 0)
        return 1;
    printf("it failed as %s\n", found);
    return 0;
}

static int is_text(const char *found, const char *wanted)
{
    return found != NULL && strcmp(found, wanted) == 0;
}

static kagzuvis *start(const char *priorities)
{
    struct kagzuvis_options options;
    kagzuvis *kernel;

    memset(&options, 0, sizeof options);
    options.priorities = priorities;
    kernel = kagzuvis_start(program, &options);
    if (kernel == NULL) {
        perror(program);
        exit(1);
    }
    return kernel;
}

static void stop(kagzuvis *kernel, int status)
{
    struct kagzuvis_end end;

    CHECK(kagzuvis_stop(kernel, &end) == 0);
    CHECK(end.status == status);
}

/* Whether a file has these bytes. */
static int has(kagzuvis *kernel, int fd, const char *bytes, size_t length)
{
    char found[1024];

    return kagzuvis_pread(kernel, 1, fd, found, sizeof found, 0) == (long)length && memcmp(found, bytes, length) == 0;
}

static void test_calls_of_a_file(void)
{
    kagzuvis *kernel = start("0");
    struct kagzuvis_stat stat;
    char bytes[16];

    CHECK(kagzuvis_open(kernel, 1, "/a", KAGZUVIS_RDWR | KAGZUVIS_CREAT) == 0);
    CHECK(kagzuvis_write(kernel, 1, 0, "abcdef", 6) == 6);
    CHECK(kagzuvis_lseek(kernel, 1, 0, 1, SEEK_SET) == 1);
    CHECK(kagzuvis_read(kernel, 1, 0, bytes, 3) == 3 && memcmp(bytes, "bcd", 3) == 0);
    CHECK(kagzuvis_lseek(kernel, 1, 0, 1, SEEK_CUR) == 5);
    CHECK(kagzuvis_lseek(kernel, 1, 0, -2, SEEK_END) == 4);
    CHECK(kagzuvis_pread(kernel, 1, 0, bytes, 16, 2) == 4 && memcmp(bytes, "cdef", 4) == 0);
    CHECK(kagzuvis_pwrite(kernel, 1, 0, "xy", 2, 1) == 2);
    CHECK(kagzuvis_fill(kernel, 1, 0, 3, 'z') == 3);
    CHECK(kagzuvis_pfill(kernel, 1, 0, 1, 0, 8) == 1);
    CHECK(has(kernel, 0, "axydzzz\0\0", 9));
    CHECK(kagzuvis_read(kernel, 1, 0, NULL, 0) == 0);
    CHECK(kagzuvis_ftruncate(kernel, 1, 0, 4) == 0);
    CHECK(kagzuvis_fstat(kernel, 1, 0, &stat) == 0);
    CHECK(stat.kind == KAGZUVIS_FILE && stat.size == 4 && stat.links == 1);
    CHECK(kagzuvis_truncate(kernel, 1, "/a", 5) == 0);
    CHECK(kagzuvis_stat(kernel, 1, "/a", &stat) == 0 && stat.size == 5);
    CHECK(kagzuvis_fallocate(kernel, 1, 0, 0, 3000, KAGZUVIS_GROW) == 0);
    CHECK(kagzuvis_fallocate(kernel, 1, 0, 0, 9000, KAGZUVIS_KEEP) == 0);
    CHECK(kagzuvis_lseek(kernel, 1, 0, 0, KAGZUVIS_SEEK_HOLE) == 1024);
    CHECK(kagzuvis_lseek(kernel, 1, 0, 0, KAGZUVIS_SEEK_DATA) == 0);
    CHECK(kagzuvis_fallocate(kernel, 1, 0, 0, 5, KAGZUVIS_PUNCH) == 0);
    CHECK(kagzuvis_fstat(kernel, 1, 0, &stat) == 0 && stat.size == 3000);
    CHECK(kagzuvis_dup(kernel, 1, 0) == 1);
    CHECK(kagzuvis_dup2(kernel, 1, 0, 7) == 7);
    CHECK(kagzuvis_close(kernel, 1, 7) == 0);
    CHECK(kagzuvis_last(kernel)->place == 25 && kagzuvis_last(kernel)->process == 1);
    CHECK(is_text(kagzuvis_last(kernel)->operation, "close"));
    stop(kernel, 0);
}

static void test_calls_of_names(void)
{
    kagzuvis *kernel = start("0");
    struct kagzuvis_names *names;
    struct kagzuvis_stat stat;

    CHECK(kagzuvis_mkdir(kernel, 1, "/d") == 0);
    CHECK(kagzuvis_open(kernel, 1, "/d/a", KAGZUVIS_WRONLY | KAGZUVIS_CREAT | KAGZUVIS_EXCL | KAGZUVIS_APPEND) == 0);
    CHECK(kagzuvis_link(kernel, 1, "/d/a", "/d/b") == 0);
    CHECK(kagzuvis_stat(kernel, 1, "/d/a", &stat) == 0 && stat.links == 2);
    CHECK(kagzuvis_rename(kernel, 1, "/d/b", "/c") == 0);
    CHECK(kagzuvis_exchange(kernel, 1, "/c", "/d") == 0);
    CHECK(kagzuvis_stat(kernel, 1, "/c", &stat) == 0 && stat.kind == KAGZUVIS_DIRECTORY);
    CHECK(kagzuvis_exchange(kernel, 1, "/d", "/c") == 0);
    CHECK(kagzuvis_unlink(kernel, 1, "/d/a") == 0);
    names = kagzuvis_list(kernel, 1, "/");
    CHECK(names != NULL && names->count == 2 && strcmp(names->names[0], "c") == 0 && strcmp(names->names[1], "d") == 0);
    free(names);
    names = kagzuvis_list(kernel, 1, "/d");
    CHECK(names != NULL && names->count == 0);
    free(names);
    CHECK(kagzuvis_rmdir(kernel, 1, "/d") == 0);
    CHECK(kagzuvis_stat(kernel, 1, "/", &stat) == 0 && stat.kind == KAGZUVIS_DIRECTORY);
    CHECK(kagzuvis_list(kernel, 1, "/d") == NULL && has_failed(kernel, "ENOENT"));
    stop(kernel, 0);
}

static void test_links_fifos_and_sockets(void)
{
    kagzuvis *kernel = start("0");
    struct kagzuvis_stat stat;
    char target[8];

    CHECK(kagzuvis_symlink(kernel, 1, "../a\xff ", "/l") == 0);
    CHECK(kagzuvis_readlink(kernel, 1, "/l", target, sizeof target) == 6 && memcmp(target, "../a\xff ", 6) == 0);
    CHECK(kagzuvis_readlink(kernel, 1, "/l", target, 2) == 2 && kagzuvis_last(kernel)->length == 6);
    CHECK(kagzuvis_lstat(kernel, 1, "/l", &stat) == 0);
    CHECK(stat.kind == KAGZUVIS_LINK && stat.size == 6 && stat.links == 1);
    CHECK(kagzuvis_mknod(kernel, 1, "/f", KAGZUVIS_FIFO) == 0 && kagzuvis_mknod(kernel, 1, "/s", KAGZUVIS_SOCKET) == 0);
    CHECK(kagzuvis_stat(kernel, 1, "/f", &stat) == 0 && stat.kind == KAGZUVIS_FIFO && stat.links == 1);
    CHECK(kagzuvis_lstat(kernel, 1, "/s", &stat) == 0 && stat.kind == KAGZUVIS_SOCKET);
    FAILS(kernel, "ELOOP", kagzuvis_stat(kernel, 1, "/l", &stat));
    FAILS(kernel, "ENXIO", kagzuvis_open(kernel, 1, "/f", KAGZUVIS_RDONLY));
    FAILS(kernel, "EINVAL", kagzuvis_readlink(kernel, 1, "/f", target, sizeof target));
    FAILS(kernel, "ENOENT", kagzuvis_symlink(kernel, 1, "", "/k"));
    FAILS(kernel, "Misused", kagzuvis_mknod(kernel, 1, "/k", KAGZUVIS_PIPE));
    stop(kernel, 0);
}

static int is_of(const struct kagzuvis_stat *stat, unsigned mode, uint32_t user, uint32_t group)
{
    return stat->mode == mode && stat->user == user && stat->group == group;
}

static void test_modes_and_owners(void)
{
    kagzuvis *kernel = start("0");
    struct kagzuvis_stat stat;

    CHECK(kagzuvis_open(kernel, 1, "/a", KAGZUVIS_WRONLY | KAGZUVIS_CREAT) == 0);
    CHECK(kagzuvis_symlink(kernel, 1, "a", "/l") == 0);
    CHECK(kagzuvis_stat(kernel, 1, "/a", &stat) == 0 && is_of(&stat, 0644, 0, 0));
    CHECK(kagzuvis_chmod(kernel, 1, "/a", 07777) == 0);
    CHECK(kagzuvis_fstat(kernel, 1, 0, &stat) == 0 && is_of(&stat, 07777, 0, 0));
    CHECK(kagzuvis_chown(kernel, 1, "/a", 1, UINT32_MAX - 1) == 0);
    CHECK(kagzuvis_stat(kernel, 1, "/a", &stat) == 0 && is_of(&stat, 01777, 1, UINT32_MAX - 1));
    CHECK(kagzuvis_fchown(kernel, 1, 0, KAGZUVIS_SAME, 2) == 0 && kagzuvis_fchmod(kernel, 1, 0, 0) == 0);
    CHECK(kagzuvis_stat(kernel, 1, "/a", &stat) == 0 && is_of(&stat, 0, 1, 2));
    CHECK(kagzuvis_chown(kernel, 1, "/l", 3, KAGZUVIS_SAME) == 0);
    CHECK(kagzuvis_lstat(kernel, 1, "/l", &stat) == 0 && stat.size == 1 && is_of(&stat, 0777, 3, 0));
    CHECK(kagzuvis_stat(kernel, 1, "/", &stat) == 0 && is_of(&stat, 0755, 0, 0));
    FAILS(kernel, "ELOOP", kagzuvis_chmod(kernel, 1, "/l", 0700));
    FAILS(kernel, "ENOENT", kagzuvis_chown(kernel, 1, "/b", 1, 2));
    FAILS(kernel, "EBADF", kagzuvis_fchmod(kernel, 1, 9, 0700));
    FAILS(kernel, "EBADF", kagzuvis_fchown(kernel, 1, -1, 1, 2));
    FAILS(kernel, "Misused", kagzuvis_chmod(kernel, 1, "/a", 010000));
    stop(kernel, 0);
}

static void test_pipes_and_processes(void)
{
    kagzuvis *kernel = start("0");
    struct kagzuvis_stat stat;
    char bytes[16];
    int fds[2];

    CHECK(kagzuvis_pipe(kernel, 1, fds) == 0 && fds[0] == 0 && fds[1] == 1);
    CHECK(kagzuvis_fork(kernel, 1) == 2);
    CHECK(kagzuvis_write(kernel, 2, fds[1], "hi", 2) == 2);
    CHECK(kagzuvis_read(kernel, 1, fds[0], bytes, sizeof bytes) == 2 && memcmp(bytes, "hi", 2) == 0);
    FAILS(kernel, "EAGAIN", kagzuvis_read(kernel, 1, fds[0], bytes, sizeof bytes));
    CHECK(kagzuvis_fstat(kernel, 1, fds[0], &stat) == 0 && stat.kind == KAGZUVIS_PIPE);
    CHECK(kagzuvis_exit(kernel, 2) == 0);
    FAILS(kernel, "NoProcess", kagzuvis_exit(kernel, 2));
    stop(kernel, 0);
}

static void test_refusals(void)
{
    kagzuvis *kernel = start("0");
    char long_name[300];
    int fds[2];

    memset(long_name, 'a', sizeof long_name - 1);
    long_name[0] = '/';
    long_name[sizeof long_name - 1] = '\0';
    CHECK(kagzuvis_mkdir(kernel, 1, "/d") == 0);
    CHECK(kagzuvis_open(kernel, 1, "/d/a", KAGZUVIS_RDONLY | KAGZUVIS_CREAT) == 0);
    CHECK(kagzuvis_pipe(kernel, 1, fds) == 0);
    FAILS(kernel, "EBADF", kagzuvis_close(kernel, 1, -1));
    FAILS(kernel, "EBADF", kagzuvis_write(kernel, 1, 0, "a", 1));
    FAILS(kernel, "EEXIST", kagzuvis_mkdir(kernel, 1, "/d"));
    FAILS(kernel, "EINVAL", kagzuvis_mkdir(kernel, 1, ""));
    FAILS(kernel, "EINVAL", kagzuvis_open(kernel, 1, "/d/a", 0));
    FAILS(kernel, "EISDIR", kagzuvis_open(kernel, 1, "/d", KAGZUVIS_RDONLY));
    FAILS(kernel, "ENAMETOOLONG", kagzuvis_mkdir(kernel, 1, long_name));
    FAILS(kernel, "ENOENT", kagzuvis_unlink(kernel, 1, "/a"));
    FAILS(kernel, "ENOTDIR", kagzuvis_rmdir(kernel, 1, "/d/a"));
    FAILS(kernel, "ENOTEMPTY", kagzuvis_rmdir(kernel, 1, "/d"));
    FAILS(kernel, "EPERM", kagzuvis_unlink(kernel, 1, "/d"));
    FAILS(kernel, "EBUSY", kagzuvis_rmdir(kernel, 1, "/"));
    FAILS(kernel, "ESPIPE", kagzuvis_lseek(kernel, 1, 1, 0, SEEK_SET));
    FAILS(kernel, "EFBIG", kagzuvis_truncate(kernel, 1, "/d/a", UINT32_MAX));
    FAILS(kernel, "NotInTransaction", kagzuvis_end(kernel, 1));
    FAILS(kernel, "Misused", kagzuvis_lseek(kernel, 1, 0, 0, 77));
    FAILS(kernel, "ESPIPE", kagzuvis_fallocate(kernel, 1, 2, 0, 1, KAGZUVIS_KEEP));
    FAILS(kernel, "ENOENT", kagzuvis_exchange(kernel, 1, "/d", "/none"));
    FAILS(kernel, "Misused", kagzuvis_fallocate(kernel, 1, 0, 0, 1, 77));
    FAILS(kernel, "Misused", kagzuvis_open(kernel, 1, "/a", 64));
    FAILS(kernel, "Misused", kagzuvis_begin(kernel, 1, 4));
    FAILS(kernel, "Misused", kagzuvis_send(kernel, "1 end\n1 end"));
    FAILS(kernel, "Misused", kagzuvis_send(kernel, "# 1 end"));
    FAILS(kernel, "Misused", kagzuvis_receive(kernel));
    CHECK(kagzuvis_close(kernel, 1, 1) == 0);
    FAILS(kernel, "EPIPE", kagzuvis_write(kernel, 1, 2, "a", 1));
    stop(kernel, 0);
}

static void test_odd_bytes(void)
{
    kagzuvis *kernel = start("0");
    char all[256], path[257], spelled[8];
    struct kagzuvis_names *names;
    size_t length = 0;
    int byte;

    path[length++] = '/';
    for (byte = 0; byte < 256; byte++) {
        all[byte] = (char)(unsigned char)byte;
        if (byte != 0 && byte != '/')
            path[length++] = all[byte];
    }
    path[length] = '\0';
    CHECK(kagzuvis_open(kernel, 1, path, KAGZUVIS_RDWR | KAGZUVIS_CREAT) == 0);
    CHECK(kagzuvis_mkdir(kernel, 1, "/->") == 0 && kagzuvis_mkdir(kernel, 1, "/dooms") == 0);
    names = kagzuvis_list(kernel, 1, "/");
    CHECK(names != NULL && names->count == 3 && strcmp(names->names[0], path + 1) == 0);
    CHECK(names != NULL && names->count == 3 && strcmp(names->names[1], "->") == 0);
    free(names);
    FAILS(kernel, "EINVAL", kagzuvis_rename(kernel, 1, "->", "->"));
    CHECK(kagzuvis_write(kernel, 1, 0, all, sizeof all) == 256);
    CHECK(kagzuvis_write(kernel, 1, 0, all, 0) == 0);
    CHECK(has(kernel, 0, all, sizeof all));
    CHECK(kagzuvis_ftruncate(kernel, 1, 0, 0) == 0 && has(kernel, 0, "", 0));
    CHECK(kagzuvis_spell(spelled, sizeof spelled, "a\\ ", 3) == 9);
    CHECK(kagzuvis_spell(spelled, sizeof spelled, "a ", 2) == 5 && strcmp(spelled, "a\\x20") == 0);
    CHECK(kagzuvis_spell(spelled, sizeof spelled, "", 0) == 2 && strcmp(spelled, "\\e") == 0);
    stop(kernel, 0);
}

static void test_long_writes_are_short(void)
{
    size_t size = 1 << 20;
    char *zeros = calloc(size, 1);
    kagzuvis *kernel = start("0");

    CHECK(zeros != NULL && kagzuvis_open(kernel, 1, "/a", KAGZUVIS_RDWR | KAGZUVIS_CREAT) == 0);
    if (zeros != NULL) {
        CHECK(kagzuvis_write(kernel, 1, 0, zeros, size) == (1048576 - 64) / 4);
        CHECK(kagzuvis_pread(kernel, 1, 0, zeros, size, 0) == (1048576 - 64) / 4);
    }
    free(zeros);
    stop(kernel, 0);
}

/* What a function that is run as a transaction does, and what it has come to. */
struct work {
    int tries;         /* how often it was run */
    int conflicts;     /* how often the second process is in its way */
    int at_end;        /* whether it leaves the abort to the end */
    int careless;      /* whether it takes no notice of the abort */
    int returned;
};

/* Adds 1 to the number in a file. */
static int add(kagzuvis *kernel, unsigned process, void *argument)
{
    struct work *work = argument;
    char bytes[2];
    int fd = kagzuvis_open(kernel, process, "/counter", KAGZUVIS_RDWR);

    work->tries++;
    if (fd < 0 || kagzuvis_pread(kernel, process, fd, bytes, 1, 0) != 1)
        return -1;
    bytes[0]++;
    if (work->tries <= work->conflicts) {
        CHECK(kagzuvis_pwrite(kernel, 2, 0, bytes, 1, 0) == 1);
        CHECK(kagzuvis_last(kernel)->doomed_count == 1 && kagzuvis_last(kernel)->doomed[0] == process);
        if (work->at_end)
            return work->returned;
    }
    if (kagzuvis_pwrite(kernel, process, fd, bytes, 1, 0) != 1) {
        FAILS(kernel, "Aborted", kagzuvis_mkdir(kernel, process, "/behind"));
        return work->careless ? 0 : -1;
    }
    return work->returned != 0 ? work->returned : kagzuvis_close(kernel, process, fd);
}

/* Runs that work, and checks what is in the file then. */
static void run_add(struct work work, unsigned retries, int wanted, int tries, const char *content)
{
    kagzuvis *kernel = start("00");
    struct kagzuvis_stat stat;

    CHECK(kagzuvis_open(kernel, 2, "/counter", KAGZUVIS_RDWR | KAGZUVIS_CREAT) == 0);
    CHECK(kagzuvis_write(kernel, 2, 0, "1", 1) == 1);
    CHECK(kagzuvis_run(kernel, 1, add, &work, retries) == wanted);
    if (wanted == -1) {
        CHECK(has_failed(kernel, "Aborted") && kagzuvis_last(kernel)->cause.aspect == KAGZUVIS_BLOCK);
        CHECK(kagzuvis_last(kernel)->cause.other == 2 && kagzuvis_last(kernel)->restarted == (retries > 0));
    }
    CHECK(work.tries == tries);
    FAILS(kernel, "ENOENT", kagzuvis_stat(kernel, 1, "/behind", &stat));
    FAILS(kernel, "NotInTransaction", kagzuvis_end(kernel, 1));
    CHECK(kagzuvis_open(kernel, 1, "/counter", KAGZUVIS_RDONLY) == 0 && has(kernel, 0, content, strlen(content)));
    stop(kernel, 0);
}

static void test_transactions_that_run(void)
{
    struct work plain = {0, 0, 0, 0, 0}, given_up = {0, 0, 0, 0, 5}, one = {0, 1, 0, 0, 0}, at_end = {0, 1, 1, 0, 0};
    struct work careless = {0, 1, 0, 1, 0}, lost = {0, 9, 0, 0, 0};

    run_add(plain, 9, 0, 1, "2");
    run_add(given_up, 9, 5, 1, "1");
    run_add(one, 9, 0, 2, "3");
    run_add(at_end, 1, 0, 2, "3");
    run_add(careless, 1, 0, 2, "3");
    run_add(lost, 0, -1, 1, "2");
    run_add(lost, 2, -1, 3, "4");
}

static int misuse(kagzuvis *kernel, unsigned process, void *argument)
{
    (void)argument;
    FAILS(kernel, "Misused", kagzuvis_begin(kernel, process, 0));
    FAILS(kernel, "Misused", kagzuvis_end(kernel, process));
    FAILS(kernel, "Misused", kagzuvis_abort(kernel, process, 0));
    FAILS(kernel, "ENOTSUP", kagzuvis_fork(kernel, process));
    CHECK(kagzuvis_mkdir(kernel, process, "/d") == 0);
    return kagzuvis_mkdir(kernel, process, "/d");
}

static void test_transactions_by_hand(void)
{
    kagzuvis *kernel = start("100");
    const struct kagzuvis_answer *last = kagzuvis_last(kernel);
    struct kagzuvis_stat stat;

    CHECK(kagzuvis_begin(kernel, 1, 0) == 0);
    FAILS(kernel, "InTransaction", kagzuvis_begin(kernel, 1, KAGZUVIS_RESTART));
    CHECK(kagzuvis_mkdir(kernel, 1, "/d") == 0);
    FAILS(kernel, "ENOENT", kagzuvis_stat(kernel, 2, "/d", &stat));
    CHECK(kagzuvis_end(kernel, 1) == 0);
    CHECK(kagzuvis_stat(kernel, 2, "/d", &stat) == 0);
    CHECK(kagzuvis_rmdir(kernel, 2, "/d") == 0);
    CHECK(kagzuvis_begin(kernel, 1, KAGZUVIS_RESTART) == 0);
    CHECK(kagzuvis_abort(kernel, 1, 0) == 1);
    FAILS(kernel, "ENOENT", kagzuvis_stat(kernel, 1, "/a b", &stat));
    FAILS(kernel, "Busy", kagzuvis_mkdir(kernel, 2, "/a b"));
    CHECK(last->cause.aspect == KAGZUVIS_ENTRY && strcmp(last->cause.name, "a b") == 0);
    CHECK(last->cause.write == 1 && last->cause.other == 1);
    CHECK(kagzuvis_abort(kernel, 1, 1) == 0);
    CHECK(kagzuvis_begin(kernel, 1, KAGZUVIS_RESTART | KAGZUVIS_ABORT_UNSUPPORTED) == 0);
    FAILS(kernel, "Aborted", kagzuvis_fork(kernel, 1));
    CHECK(last->has_cause == 0 && last->restarted == 0);
    FAILS(kernel, "EEXIST", kagzuvis_run(kernel, 1, misuse, NULL, 3));
    FAILS(kernel, "ENOENT", kagzuvis_stat(kernel, 1, "/d", &stat));
    CHECK(kagzuvis_begin(kernel, 2, 0) == 0 && kagzuvis_begin(kernel, 3, 0) == 0);
    FAILS(kernel, "ENOENT", kagzuvis_stat(kernel, 2, "/x", &stat));
    FAILS(kernel, "ENOENT", kagzuvis_stat(kernel, 3, "/x", &stat));
    CHECK(kagzuvis_mkdir(kernel, 1, "/x") == 0);
    CHECK(last->doomed_count == 2 && last->doomed[0] == 2 && last->doomed[1] == 3);
    stop(kernel, 0);
}

static void test_bad_lines(void)
{
    kagzuvis *kernel = start("0");

    CHECK(kagzuvis_mkdir(kernel, 1, "/a") == 0);
    CHECK(kagzuvis_send(kernel, "1 frob") == 0 && kagzuvis_send(kernel, "1 list /") == 0);
    FAILS(kernel, "Misused", kagzuvis_mkdir(kernel, 1, "/b"));
    FAILS(kernel, "BadLine", kagzuvis_receive(kernel));
    CHECK(is_text(kagzuvis_last(kernel)->fault, "line 3: unknown operation"));
    CHECK(kagzuvis_receive(kernel) == 0 && kagzuvis_last(kernel)->name_count == 1);
    FAILS(kernel, "BadLine", kagzuvis_mkdir(kernel, 0, "/b"));
    stop(kernel, 1);
}

static void test_the_end(void)
{
    struct kagzuvis_options options;
    struct kagzuvis_end end = {0, 0};
    kagzuvis *kernel;

    memset(&options, 0, sizeof options);
    options.check = 1;
    options.limit = 1;
    options.file_limit = 10;
    kernel = kagzuvis_start(program, &options);
    CHECK(kernel != NULL && kagzuvis_open(kernel, 1, "/a", KAGZUVIS_WRONLY | KAGZUVIS_CREAT) == 0);
    CHECK(kernel != NULL && kagzuvis_write(kernel, 1, 0, "abcdefghijklm", 13) == 10);
    CHECK(kernel != NULL && kagzuvis_stop(kernel, &end) == 0 && end.status == 0 && end.checked);
    /* A transaction needs two places. */
    kernel = kagzuvis_start(program, &options);
    CHECK(kernel != NULL && kagzuvis_send(kernel, "1 mkdir /a") == 0 && kagzuvis_send(kernel, "1 begin") == 0);
    CHECK(kernel != NULL && kagzuvis_receive(kernel) == 0);
    if (kernel != NULL) {
        FAILS(kernel, "StreamEnded", kagzuvis_receive(kernel));
        FAILS(kernel, "StreamEnded", kagzuvis_mkdir(kernel, 1, "/b"));
        stop(kernel, 3);
    }
    CHECK(kagzuvis_start("/nonexistent/program", NULL) == NULL && errno == ENOENT);
    options.priorities = "08";
    CHECK(kagzuvis_start(program, &options) == NULL && errno == EINVAL);
}

static void test_bounds(void)
{
    struct kagzuvis_options options;
    struct kagzuvis_end end = {0, 0};
    kagzuvis *kernel;
    int fd;

    memset(&options, 0, sizeof options);
    options.check = 1;
    options.descriptors = 100;
    options.path_limit = 5;
    kernel = kagzuvis_start(program, &options);
    CHECK(kernel != NULL);
    if (kernel == NULL)
        return;
    for (fd = 0; fd < 100; fd++)
        CHECK(kagzuvis_open(kernel, 1, "/a", KAGZUVIS_WRONLY | KAGZUVIS_CREAT) == fd);
    FAILS(kernel, "EMFILE", kagzuvis_dup(kernel, 1, 0));
    FAILS(kernel, "EBADF", kagzuvis_dup2(kernel, 1, 0, 100));
    CHECK(kagzuvis_mkdir(kernel, 1, "/abcd") == 0);
    FAILS(kernel, "ENAMETOOLONG", kagzuvis_mkdir(kernel, 1, "/abcde"));
    CHECK(kagzuvis_stop(kernel, &end) == 0 && end.status == 0 && end.checked);
}

static void test_many_lines_ahead(void)
{
    kagzuvis *kernel = start("0");
    char line[64], wanted[16];
    int number, are_well = 1;

    CHECK(kagzuvis_open(kernel, 1, "/f", KAGZUVIS_RDWR | KAGZUVIS_CREAT) == 0);
    for (number = 0; number < 10000; number++) {
        if (number < 5000)
            snprintf(line, sizeof line, "1 pwrite 0 %05d %d", number, 5 * number);
        else
            snprintf(line, sizeof line, "1 pread 0 5 %d", 5 * (number - 5000));
        are_well = are_well && kagzuvis_send(kernel, line) == 0;
    }
    for (number = 0; number < 10000; number++) {
        are_well = are_well && kagzuvis_receive(kernel) == 0;
        snprintf(wanted, sizeof wanted, "%05d", number - 5000);
        if (number >= 5000)
            are_well = are_well && is_text(kagzuvis_last(kernel)->bytes, wanted);
    }
    CHECK(are_well);
    CHECK(kagzuvis_fill(kernel, 1, 0, 100000, 'a') == 100000);
    /* These answers are larger than the pipes. */
    for (number = 0; number < 20; number++)
        CHECK(kagzuvis_send(kernel, "1 pread 0 100000 0") == 0);
    for (number = 0; number < 20; number++)
        CHECK(kagzuvis_receive(kernel) == 0 && kagzuvis_last(kernel)->length == 100000);
    stop(kernel, 0);
}

/* Lines that are no answers. */
static const char *const hostile[] = {
    "", " ", "?", "1", "1 P1", "1 P1 mkdir", "1 P1 mkdir /a", "1 P1 mkdir /a ->", "1 P1 mkdir /a -> ", "1 P1 mkdir /a -> okay",
    "1 P1 mkdir /a -> ok ", "1 P1 mkdir /a -> ok dooms", "1 P1 mkdir /a -> ok dooms P", "1 P1 mkdir /a -> ok dooms P2,",
    "1 P1 mkdir /a /b -> ok", "1 P1 mkdir  -> ok", "1 1 mkdir /a -> ok", "x P1 mkdir /a -> ok", "1 P1 frob /a -> ok", "1 P1 read 0 9 -> 2 a",
    "1 P1 read 0 9 -> 1", "1 P1 read 0 9 -> 1 \\", "1 P1 read 0 9 -> 1 \\x4", "1 P1 read 0 9 -> 1 \\xAA",
    "1 P1 open /a RDONLY -> -1", "1 P1 open /a RDONLY -> 4294967296", "1 P1 stat /a -> file size 1 links",
    "1 P1 stat /a -> file size 1 links 1 mode", "1 P1 stat /a -> file size 1 links 1 mode 8",
    "1 P1 stat /a -> file size 1 links 1 mode 10000", "1 P1 stat /a -> file size 1 links 1 owner 1",
    "1 P1 stat /a -> file size 1 links 1 owner 1 2 mode 7", "1 P1 chmod /a -> ok",
    "1 P1 stat /a -> door size 1 links 1", "1 P1 readlink /a -> ok", "1 P1 symlink a -> ok", "1 P1 list / -> names 2 a",
    "1 P1 list / -> names 4294967295 a",
    "1 P1 list / -> names 99999999999999999999 a", "1 P1 list / -> names 1 a b", "1 P1 list / -> names 1 \\x00",
    "1 P1 pipe -> 0", "1 P1 begin RESTART RESTART -> begun", "1 P1 end -> aborted", "1 P1 end -> aborted entry",
    "1 P1 end -> aborted entry a read by 2", "1 P1 end -> aborted block a read by P2", "1 P1 end -> busy names seen by P2",
    "1 P1 end -> aborted unsupported restarted restarted", "99999999999999999999 P1 end -> committed",
};

/* A kernel that has given all its answers already. Where `reads` is 0 nobody reads what is sent to it. */
static kagzuvis *kernel_over(const char *answers, size_t length, int reads)
{
    static int kept = -1;
    int from[2], to[2];
    kagzuvis *kernel = NULL;

    if (kept >= 0)
        close(kept);
    if (pipe(from) == 0 && pipe(to) == 0 && write(from[1], answers, length) == (ssize_t)length)
        kernel = kagzuvis_over(from[0], to[1], NULL);
    if (kernel == NULL)
        exit(1);
    close(from[1]);
    kept = reads ? to[0] : -1;
    if (!reads)
        close(to[0]);
    return kernel;
}

static void test_hostile_answers(void)
{
    char line[512];
    size_t at;
    kagzuvis *kernel;

    for (at = 0; at < sizeof hostile / sizeof *hostile; at++) {
        snprintf(line, sizeof line, "%s\n", hostile[at]);
        kernel = kernel_over(line, strlen(line), 1);
        CHECK(kagzuvis_send(kernel, "1 end") == 0);
        check(kagzuvis_receive(kernel) == -1 && has_failed(kernel, "BadAnswer"), hostile[at], __LINE__);
        CHECK(kagzuvis_stop(kernel, NULL) == 0);
    }
    snprintf(line, sizeof line, "1 P1 end -> busy entry %0256d read by P2\n", 0);
    kernel = kernel_over(line, strlen(line), 1);
    FAILS(kernel, "BadAnswer", kagzuvis_end(kernel, 1));
    CHECK(kagzuvis_stop(kernel, NULL) == 0);
    /* Answers to something else, more than was asked for, and a line that does not end. */
    strcpy(line, "1 P2 end -> committed\n2 P1 rmdir /a -> ok\n3 P1 read 0 1 -> 2 ab\n4 P1 end -> comm");
    kernel = kernel_over(line, strlen(line), 1);
    FAILS(kernel, "BadAnswer", kagzuvis_end(kernel, 1));
    FAILS(kernel, "BadAnswer", kagzuvis_mkdir(kernel, 1, "/a"));
    FAILS(kernel, "BadAnswer", kagzuvis_read(kernel, 1, 0, line, 1));
    FAILS(kernel, "StreamEnded", kagzuvis_end(kernel, 1));
    CHECK(kagzuvis_stop(kernel, NULL) == 0);
    /* A pipe without a reader does not end this program. */
    kernel = kernel_over("", 0, 0);
    FAILS(kernel, "StreamEnded", kagzuvis_end(kernel, 1));
    CHECK(kagzuvis_stop(kernel, NULL) == 0);
}

int main(int argc, char **argv)
{
    if (argc != 2) {
        fprintf(stderr, "usage: test_kagzuvis PROGRAM\n");
        return 2;
    }
    program = argv[1];
    test_calls_of_a_file();
    test_calls_of_names();
    test_links_fifos_and_sockets();
    test_modes_and_owners();
    test_pipes_and_processes();
    test_refusals();
    test_odd_bytes();
    test_long_writes_are_short();
    test_transactions_that_run();
    test_transactions_by_hand();
    test_bad_lines();
    test_the_end();
    test_bounds();
    test_many_lines_ahead();
    test_hostile_answers();
    if (failures == 0)
        printf("test_kagzuvis.c: ok\n");
    else
        printf("test_kagzuvis.c: %d failed\n", failures);
    return failures != 0;
}
