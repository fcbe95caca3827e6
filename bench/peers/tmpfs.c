/*
 * The machine's own kernel as a peer: the rows of crates/bench by system calls, in a folder that lies on tmpfs.
 *
 * usage: tmpfs FOLDER PART, with PART one of small, large, largest, files and lines
 *
 * Each line has, with tabs between: "tmpfs", the row's name, a number of calls, their nanoseconds by CLOCK_MONOTONIC,
 * and 0. The folder is empty before and after.
 */
#define _GNU_SOURCE
#include <dirent.h>
#include <fcntl.h>
#include <stdint.h>
#include <stdio.h>
#include <stdlib.h>
#include <string.h>
#include <sys/stat.h>
#include <sys/wait.h>
#include <time.h>
#include <unistd.h>

#define DEEP "p/p/p/p/p/p/p/p"

static char content[64];
static int pipe_ends[2];
static int open_file;

static void fail(const char *what)
{
    perror(what);
    exit(1);
}

static void must(int result, const char *what)
{
    if (result < 0)
        fail(what);
}

static int64_t nanos(void)
{
    struct timespec now;
    clock_gettime(CLOCK_MONOTONIC, &now);
    return now.tv_sec * INT64_C(1000000000) + now.tv_nsec;
}

/* The number of the i-th new name, and the i-th of so many in another order: as in crates/bench/src/paths.rt. */
static uint64_t scattered(uint64_t i)
{
    return i * 648055 % 1048576;
}

static uint64_t shuffled(uint64_t i, uint64_t count)
{
    return (i * 7919 + 13) % count;
}

/* "d/", a letter, and the number in seven digits. */
static void set_path(char path[16], char letter, uint64_t number)
{
    memcpy(path, "d/", 2);
    path[2] = letter;
    for (int index = 9; index >= 3; index--) {
        path[index] = '0' + number % 10;
        number /= 10;
    }
    path[10] = 0;
}

typedef void work(uint64_t number);

static void do_mkdir(uint64_t number)
{
    char path[16];
    set_path(path, 'n', number);
    must(mkdir(path, 0755), "mkdir");
}

static void do_stat(uint64_t number)
{
    char path[16];
    struct stat found;
    set_path(path, 'n', number);
    must(stat(path, &found), "stat");
}

static void do_stat_deep(uint64_t number)
{
    struct stat found;
    (void)number;
    must(stat(DEEP, &found), "stat");
}

static void do_rmdir(uint64_t number)
{
    char path[16];
    set_path(path, 'n', number);
    must(rmdir(path), "rmdir");
}

static void do_refused(uint64_t number)
{
    (void)number;
    if (rmdir("d") == 0)
        exit(1);
}

static void do_list(uint64_t number)
{
    DIR *directory = opendir("d");
    (void)number;
    if (!directory)
        fail("opendir");
    while (readdir(directory))
        continue;
    closedir(directory);
}

static void do_create(uint64_t number)
{
    char path[16];
    int file;
    set_path(path, 'f', number);
    file = open(path, O_WRONLY | O_CREAT, 0644);
    must(file, "open");
    must(write(file, content, sizeof content), "write");
    close(file);
}

static void do_read(uint64_t number)
{
    char path[16], bytes[64];
    int file;
    set_path(path, 'f', number);
    file = open(path, O_RDONLY);
    must(file, "open");
    must(read(file, bytes, sizeof bytes), "read");
    close(file);
}

/* Where the call of this number begins in the open file of 64 KiB. */
static off_t small_offset_of(uint64_t number)
{
    return number % 1024 * sizeof content;
}

static void do_pwrite(uint64_t number)
{
    must(pwrite(open_file, content, sizeof content, small_offset_of(number)), "pwrite");
}

static void do_pread(uint64_t number)
{
    char bytes[64];
    must(pread(open_file, bytes, sizeof bytes, small_offset_of(number)), "pread");
}

static void do_truncate(uint64_t number)
{
    char path[16];
    set_path(path, 'f', number);
    must(truncate(path, 32), "truncate");
}

static void do_chmod(uint64_t number)
{
    char path[16];
    set_path(path, 'f', number);
    must(chmod(path, 0755), "chmod");
}

/* To the one who runs this, since nobody else may be named without rights. */
static void do_chown(uint64_t number)
{
    char path[16];
    set_path(path, 'f', number);
    must(chown(path, getuid(), getgid()), "chown");
}

static void do_rename(uint64_t number)
{
    char old[16], new[16];
    set_path(old, 'f', number);
    set_path(new, 'g', number);
    must(rename(old, new), "rename");
}

static void do_exchange(uint64_t number)
{
    char old[16], new[16];
    set_path(old, 'f', number);
    set_path(new, 'f', scattered(0));
    must(renameat2(AT_FDCWD, old, AT_FDCWD, new, RENAME_EXCHANGE), "renameat2");
}

static void do_unlink(uint64_t number)
{
    char path[16];
    set_path(path, 'g', number);
    must(unlink(path), "unlink");
}

#define TARGET "../some/where"

static void do_symlink(uint64_t number)
{
    char path[16];
    set_path(path, 'l', number);
    must(symlink(TARGET, path), "symlink");
}

static void do_readlink(uint64_t number)
{
    char path[16], target[sizeof TARGET];
    set_path(path, 'l', number);
    if (readlink(path, target, sizeof target) != sizeof TARGET - 1)
        fail("readlink");
}

static void do_lstat(uint64_t number)
{
    char path[16];
    struct stat found;
    set_path(path, 'l', number);
    must(lstat(path, &found), "lstat");
}

static void do_mknod(uint64_t number)
{
    char path[16];
    set_path(path, 'l', number);
    must(mknod(path, S_IFIFO | 0644, 0), "mknod");
}

static void do_unlink_fixed(uint64_t number)
{
    char path[16];
    set_path(path, 'l', number);
    must(unlink(path), "unlink");
}

static void do_pipe(uint64_t number)
{
    char bytes[64];
    (void)number;
    must(write(pipe_ends[1], content, sizeof content), "write");
    must(read(pipe_ends[0], bytes, sizeof bytes), "read");
}

static void do_fork(uint64_t number)
{
    pid_t child = fork();
    (void)number;
    must(child, "fork");
    if (child == 0)
        _exit(0);
    must(waitpid(child, NULL, 0), "waitpid");
}

static void print_row(const char *row, uint64_t count, int64_t start)
{
    printf("tmpfs\t%s\t%lu\t%ld\t0\n", row, (unsigned long)count, (long)(nanos() - start));
    fflush(stdout);
}

/* New names come in no order. */
static void new_names(const char *row, uint64_t count, work *each)
{
    int64_t start = nanos();
    for (uint64_t i = 0; i < count; i++)
        each(scattered(i));
    print_row(row, count, start);
}

/* Old names are met in another order. */
static void old_names(const char *row, uint64_t count, work *each)
{
    int64_t start = nanos();
    for (uint64_t i = 0; i < count; i++)
        each(scattered(shuffled(i, count)));
    print_row(row, count, start);
}

static void make_file(void)
{
    open_file = open("file", O_RDWR | O_CREAT | O_TRUNC, 0644);
    must(open_file, "open");
}

static void drop_file(void)
{
    close(open_file);
    unlink("file");
}

/* The rows of one open file, which has 64 KiB. */
static void opened(void)
{
    make_file();
    for (int index = 0; index < 1024; index++)
        must(write(open_file, content, sizeof content), "write");
    old_names("pwrite 64 bytes anywhere", 1000, do_pwrite);
    old_names("pread 64 bytes anywhere", 1000, do_pread);
    drop_file();
}

static void small(void)
{
    for (int repetition = 0; repetition < 8; repetition++) {
        new_names("mkdir of 1000 names", 1000, do_mkdir);
        old_names("stat of one name of 1000", 1000, do_stat);
        old_names("stat along 8 names", 1000, do_stat_deep);
        old_names("list of 1000 names", 10, do_list);
        old_names("rmdir of 1000 names", 1000, do_rmdir);
        new_names("create, write 64 bytes, close", 1000, do_create);
        old_names("open, read 64 bytes, close", 1000, do_read);
        old_names("truncate of one file of 1000", 1000, do_truncate);
        old_names("chmod of one file of 1000", 1000, do_chmod);
        old_names("chown of one file of 1000", 1000, do_chown);
        old_names("exchange of two names of 1000", 1000, do_exchange);
        old_names("rename", 1000, do_rename);
        old_names("unlink", 1000, do_unlink);
        new_names("symlink of 1000 names", 1000, do_symlink);
        old_names("readlink", 1000, do_readlink);
        old_names("lstat of a symbolic link", 1000, do_lstat);
        old_names("unlink of a symbolic link", 1000, do_unlink_fixed);
        new_names("mknod of 1000 FIFOs", 1000, do_mknod);
        old_names("unlink of a FIFO", 1000, do_unlink_fixed);
        old_names("pipe, write and read 64 bytes", 1000, do_pipe);
        old_names("fork and exit", 100, do_fork);
        opened();
    }
}

static void large(void)
{
    new_names("mkdir of 100000 names", 100000, do_mkdir);
    old_names("rmdir refused, 100000 names", 10, do_refused);
    old_names("rmdir of 100000 names", 100000, do_rmdir);
}

static void largest(void)
{
    int64_t start = nanos();
    for (uint64_t i = 0; i < 500000; i++)
        do_mkdir(scattered(i));
    print_row("mkdir of 500000 names", 500000, start);
    for (uint64_t i = 500000; i < 1000000; i++)
        do_mkdir(scattered(i));
    print_row("mkdir of 1000000 names", 1000000, start);
    for (uint64_t i = 0; i < 1000000; i++)
        do_rmdir(scattered(i));
}

/* What crates/bench/src/files.rt does with a file of many bytes, at the i-th time. */
#define PIECE 4096

static char piece[1 << 20];

static void seek_to(off_t offset)
{
    must(lseek(open_file, offset, SEEK_SET) < 0 ? -1 : 0, "lseek");
}

static void write_piece(size_t count)
{
    if (write(open_file, piece, count) != (ssize_t)count)
        fail("write");
}

static uint32_t offset_of(uint32_t i, uint32_t size)
{
    return i * UINT32_C(2654435761) % (size - PIECE);
}

typedef void file_work(uint32_t i, uint32_t size);

static void do_append(uint32_t i, uint32_t size)
{
    (void)i;
    (void)size;
    write_piece(PIECE);
}

static void do_write_anywhere(uint32_t i, uint32_t size)
{
    seek_to(offset_of(i, size));
    write_piece(PIECE);
}

static void do_pwrite_anywhere(uint32_t i, uint32_t size)
{
    if (pwrite(open_file, piece, PIECE, offset_of(i, size)) != PIECE)
        fail("pwrite");
}

static void do_read_anywhere(uint32_t i, uint32_t size)
{
    char bytes[PIECE];
    seek_to(offset_of(i, size));
    if (read(open_file, bytes, PIECE) != PIECE)
        fail("read");
}

static void do_pread_anywhere(uint32_t i, uint32_t size)
{
    char bytes[PIECE];
    if (pread(open_file, bytes, PIECE, offset_of(i, size)) != PIECE)
        fail("pread");
}

static void do_cut(uint32_t i, uint32_t size)
{
    must(ftruncate(open_file, size - (1 - i % 2)), "ftruncate");
}

static void do_cut_by_path(uint32_t i, uint32_t size)
{
    must(truncate("file", size - (1 - i % 2)), "truncate");
}

static void do_data(uint32_t i, uint32_t size)
{
    must(lseek(open_file, offset_of(i, size), SEEK_DATA) < 0 ? -1 : 0, "lseek");
}

static void do_punch(uint32_t i, uint32_t size)
{
    must(fallocate(open_file, FALLOC_FL_PUNCH_HOLE | FALLOC_FL_KEEP_SIZE, offset_of(i, size), PIECE), "fallocate");
}

static void file_row(const char *name, uint32_t mib, file_work *each)
{
    char row[64];
    snprintf(row, sizeof row, "%s, %u MiB", name, (unsigned)mib);
    for (int repetition = 0; repetition < 5; repetition++) {
        int64_t start;
        must(lseek(open_file, 0, SEEK_END) < 0 ? -1 : 0, "lseek");
        start = nanos();
        for (uint32_t i = 0; i < 100; i++)
            each(i, mib << 20);
        print_row(row, 100, start);
        must(ftruncate(open_file, (off_t)mib << 20), "ftruncate");
    }
}

static void emptied_row(uint32_t mib)
{
    char row[64];
    must(ftruncate(open_file, 0), "ftruncate");
    must(ftruncate(open_file, (off_t)mib << 20), "ftruncate");
    snprintf(row, sizeof row, "ftruncate a gap to no byte, %u MiB", (unsigned)mib);
    for (int repetition = 0; repetition < 5; repetition++) {
        int64_t start = nanos();
        must(ftruncate(open_file, 0), "ftruncate");
        print_row(row, 1, start);
        must(ftruncate(open_file, (off_t)mib << 20), "ftruncate");
    }
}

static void files(void)
{
    static const uint32_t sizes[] = { 1, 16, 256, 1024 };
    memset(piece, 'x', sizeof piece);
    for (size_t at = 0; at < sizeof sizes / sizeof *sizes; at++) {
        make_file();
        for (uint32_t mib = 0; mib < sizes[at]; mib++)
            write_piece(sizeof piece);
        file_row("write 4 KiB at the end", sizes[at], do_append);
        file_row("lseek, write 4 KiB anywhere", sizes[at], do_write_anywhere);
        file_row("pwrite 4 KiB anywhere", sizes[at], do_pwrite_anywhere);
        file_row("lseek, read 4 KiB anywhere", sizes[at], do_read_anywhere);
        file_row("pread 4 KiB anywhere", sizes[at], do_pread_anywhere);
        file_row("ftruncate by one byte", sizes[at], do_cut);
        file_row("truncate by one byte", sizes[at], do_cut_by_path);
        file_row("lseek to the next data", sizes[at], do_data);
        file_row("fallocate, punch 4 KiB anywhere", sizes[at], do_punch);
        emptied_row(sizes[at]);
        drop_file();
    }
    for (int repetition = 0; repetition < 3; repetition++) {
        int64_t start;
        make_file();
        start = nanos();
        for (uint32_t number = 0; number < 4096; number++)
            write_piece(65536);
        print_row("write 256 MiB by 64 KiB", 256, start);
        drop_file();
    }
}

/* The lines of the long transcript of crates/bench/src/edges.rt, by fprintf. */
static void lines(void)
{
    for (int repetition = 0; repetition < 3; repetition++) {
        int64_t start = nanos();
        FILE *file = fopen("lines", "w");
        if (!file)
            fail("fopen");
        for (long line = 1; line <= 1000000; line++)
            fprintf(file, "%ld P%d stat / -> dir size %d links %d\n", line, 1, 0, 1);
        fclose(file);
        print_row("print a million lines", 1000000, start);
        unlink("lines");
    }
}

/* Makes the folder's directories and the pipe. */
static void prepare(void)
{
    char path[] = DEEP;
    must(mkdir("d", 0755), "mkdir");
    for (size_t length = 1; length <= strlen(DEEP); length += 2) {
        memcpy(path, DEEP, sizeof path);
        path[length] = 0;
        must(mkdir(path, 0755), "mkdir");
    }
    must(pipe(pipe_ends), "pipe");
    memset(content, 'x', sizeof content);
}

/* Removes the folder's directories. */
static void clear(void)
{
    char path[] = DEEP;
    for (int length = (int)strlen(DEEP); length >= 1; length -= 2) {
        path[length] = 0;
        must(rmdir(path), "rmdir");
    }
    must(rmdir("d"), "rmdir");
}

int main(int count, char **words)
{
    if (count != 3) {
        fprintf(stderr, "usage: tmpfs FOLDER PART\n");
        return 2;
    }
    must(chdir(words[1]), "chdir");
    prepare();
    if (!strcmp(words[2], "small"))
        small();
    else if (!strcmp(words[2], "large"))
        large();
    else if (!strcmp(words[2], "largest"))
        largest();
    else if (!strcmp(words[2], "files"))
        files();
    else if (!strcmp(words[2], "lines"))
        lines();
    clear();
    return 0;
}
