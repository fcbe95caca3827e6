/*
 * A client of Kagzuvis in C (C99 and POSIX.1-2008): it talks to `txsh --stream` over two pipes.
 *
 * A function for each call answers as the call of POSIX does: -1 where it fails, and then `kagzuvis_last(kernel)->error` says
 * why. What that points to, as the names and bytes of an answer, is there until the next function on the same kernel.
 *
 * A kernel is for one thread at a time. No function lets SIGPIPE through: for the time of a write it is held back in the
 * calling thread, and where the write has brought it, it is taken away again; its action stays what the program made it.
 * Each function goes on behind a signal's handler (EINTR).
 */
#ifndef KAGZUVIS_H
#define KAGZUVIS_H

#include <stddef.h>
#include <stdint.h>
#include <stdio.h>

#ifdef __cplusplus
extern "C" {
#endif

typedef struct kagzuvis kagzuvis;

/* Why a function has failed. */
enum kagzuvis_error {
    KAGZUVIS_OK,
    /* The kernel's refusals, by the names of POSIX; the numbers are not those of errno.h. */
    KAGZUVIS_EAGAIN,
    KAGZUVIS_EBADF,
    KAGZUVIS_EBUSY,
    KAGZUVIS_EEXIST,
    KAGZUVIS_EFBIG,
    KAGZUVIS_EINVAL,
    KAGZUVIS_EISDIR,
    KAGZUVIS_ELOOP,
    KAGZUVIS_EMFILE,
    KAGZUVIS_ENAMETOOLONG,
    KAGZUVIS_ENOENT,
    KAGZUVIS_ENOTDIR,
    KAGZUVIS_ENOTEMPTY,
    KAGZUVIS_ENOTSUP,
    KAGZUVIS_ENXIO,
    KAGZUVIS_EPERM,
    KAGZUVIS_EPIPE,
    KAGZUVIS_ESPIPE,
    /* A begin inside a transaction; an end or an abort outside of one. */
    KAGZUVIS_IN_TRANSACTION,
    KAGZUVIS_NOT_IN_TRANSACTION,
    KAGZUVIS_HISTORY_FULL,
    KAGZUVIS_NO_MEMORY,
    /* The process was never made, or has ended. */
    KAGZUVIS_NO_PROCESS,
    /* A call outside of transactions lost a conflict, and was not executed. */
    KAGZUVIS_BUSY,
    /* The transaction is undone, and this operation was not executed. */
    KAGZUVIS_ABORTED,
    /* The line is no operation; it has changed nothing. */
    KAGZUVIS_BAD_LINE,
    /* What came in the place of an answer is none. */
    KAGZUVIS_BAD_ANSWER,
    /* The kernel has ended. */
    KAGZUVIS_STREAM_ENDED,
    /* A function was called where it may not be; nothing was sent. */
    KAGZUVIS_MISUSED,
    /* A function of the system has failed, or memory is short: errno says why. Whether the operation was done is not known. */
    KAGZUVIS_SYSTEM
};

enum kagzuvis_kind {
    KAGZUVIS_FILE,
    KAGZUVIS_DIRECTORY,
    KAGZUVIS_PIPE,
    /* A symbolic link. */
    KAGZUVIS_LINK,
    KAGZUVIS_FIFO,
    KAGZUVIS_SOCKET
};

/* How a file is opened: a sum of these. */
enum {
    KAGZUVIS_RDONLY = 1,
    KAGZUVIS_WRONLY = 2,
    KAGZUVIS_RDWR = 3,
    KAGZUVIS_CREAT = 4,
    KAGZUVIS_EXCL = 8,
    KAGZUVIS_TRUNC = 16,
    KAGZUVIS_APPEND = 32
};

/* How a transaction begins: a sum of these, or 0. */
enum { KAGZUVIS_RESTART = 1, KAGZUVIS_ABORT_UNSUPPORTED = 2 };

/* From where the next data, or the next hole, is looked for. (Linux's SEEK_DATA and SEEK_HOLE have these numbers.) */
enum { KAGZUVIS_SEEK_DATA = 3, KAGZUVIS_SEEK_HOLE = 4 };

/* What becomes of a range of a file: the file reaches to its end at least, nothing shows, or it is zeros. */
enum kagzuvis_space { KAGZUVIS_GROW, KAGZUVIS_KEEP, KAGZUVIS_PUNCH };

/* What an entry of a directory, its names, and so on are, of which a conflict tells. */
enum kagzuvis_aspect {
    KAGZUVIS_ENTRY,
    KAGZUVIS_NAMES,
    KAGZUVIS_SIZE,
    KAGZUVIS_BLOCK,
    KAGZUVIS_LINKS,
    KAGZUVIS_ENDS,
    KAGZUVIS_OFFSET,
    KAGZUVIS_FRONT,
    KAGZUVIS_BACK,
    KAGZUVIS_TARGET,
    KAGZUVIS_RIGHTS
};

struct kagzuvis_stat {
    enum kagzuvis_kind kind;
    uint64_t size;
    uint32_t links;
    unsigned mode;        /* the bits that a chmod sets, as 0644 */
    uint32_t user;
    uint32_t group;
};

/* Of an owner, the user or the group that stays as it is. */
#define KAGZUVIS_SAME UINT32_MAX

/* The touch by which a process lost a conflict, and the process that won. */
struct kagzuvis_cause {
    enum kagzuvis_aspect aspect;
    char name[256];       /* of an entry, else empty */
    uint64_t block;       /* of a block, else 0 */
    int write;            /* whether it was written, and not only read */
    unsigned other;
};

/* An answer. */
struct kagzuvis_answer {
    enum kagzuvis_error error;
    uint64_t place;                /* in the history, from 1; 0 where there is no entry */
    unsigned process;
    const char *operation;         /* its word, as "mkdir", or NULL */
    uint64_t numbers[2];           /* the descriptor, count, offset or child; of a pipe both descriptors */
    struct kagzuvis_stat stat;
    const char *bytes;             /* what was read, or a target, with a zero byte behind it */
    size_t length;
    const char *const *names;      /* of a list, each with a zero byte behind it */
    size_t name_count;
    int restarted;                 /* whether a transaction that was aborted or given up has begun anew */
    int has_cause;                 /* whether a conflict was lost; else an abort is of what transactions do not support */
    struct kagzuvis_cause cause;
    const unsigned *doomed;        /* the processes that the operation doomed */
    size_t doomed_count;
    const char *fault;             /* of a bad line, as "line 3: unknown operation", or NULL */
};

struct kagzuvis_options {
    const char *priorities;    /* a digit from 0 to 7 for each process that is made at the start, as "00" for two */
    unsigned long limit;       /* the program's --limit and --file-limit; 0: not given */
    unsigned long file_limit;
    int check;                 /* the program's --check */
    FILE *trace;               /* to which the line of each answer is written, or NULL */
    unsigned long descriptors; /* the program's --descriptors and --path-limit; 0: not given */
    unsigned long path_limit;
};

struct kagzuvis_end {
    int status;     /* what the program ended with, negative for a signal; 0 for a kernel over two descriptors */
    int checked;    /* whether it has said that the history passes the check */
};

struct kagzuvis_names {
    size_t count;
    const char **names;
};

/* Starts the program at this path and returns its kernel, or NULL with errno set. Where no options or no priorities are given
 * there is one process of priority 0. */
kagzuvis *kagzuvis_start(const char *program, const struct kagzuvis_options *options);

/* Returns a kernel that answers on `reader` what is written to `writer`, both of which kagzuvis_stop closes, or NULL with errno set.
 * Where no priorities are given another program has sent them. Of the options only these and the trace count. */
kagzuvis *kagzuvis_over(int reader, int writer, const struct kagzuvis_options *options);

/* Ends the kernel's input, waits until it has ended, and frees all that the kernel has. `end` may be NULL. Returns -1 with errno
 * set where its end could not be had. */
int kagzuvis_stop(kagzuvis *kernel, struct kagzuvis_end *end);

const struct kagzuvis_answer *kagzuvis_last(const kagzuvis *kernel);

/* The name of an error, as "ENOENT", "Aborted" or "StreamEnded". */
const char *kagzuvis_error_name(enum kagzuvis_error error);

/* The calls. A read, a fill and a write do at most what fits into one line, and answer how much that was. An offset counts, as
 * in POSIX, from SEEK_SET, SEEK_CUR or SEEK_END, or it is one to look from. */
int kagzuvis_open(kagzuvis *kernel, unsigned process, const char *path, unsigned flags);
int kagzuvis_close(kagzuvis *kernel, unsigned process, int fd);
long kagzuvis_read(kagzuvis *kernel, unsigned process, int fd, void *buffer, size_t count);
long kagzuvis_pread(kagzuvis *kernel, unsigned process, int fd, void *buffer, size_t count, int64_t offset);
long kagzuvis_write(kagzuvis *kernel, unsigned process, int fd, const void *bytes, size_t count);
long kagzuvis_pwrite(kagzuvis *kernel, unsigned process, int fd, const void *bytes, size_t count, int64_t offset);
long kagzuvis_fill(kagzuvis *kernel, unsigned process, int fd, size_t count, unsigned char byte);
long kagzuvis_pfill(kagzuvis *kernel, unsigned process, int fd, size_t count, unsigned char byte, int64_t offset);
int64_t kagzuvis_lseek(kagzuvis *kernel, unsigned process, int fd, int64_t offset, int whence);
int kagzuvis_ftruncate(kagzuvis *kernel, unsigned process, int fd, uint64_t length);
int kagzuvis_fallocate(kagzuvis *kernel, unsigned process, int fd, int64_t offset, int64_t length, enum kagzuvis_space space);
int kagzuvis_truncate(kagzuvis *kernel, unsigned process, const char *path, uint64_t length);
int kagzuvis_stat(kagzuvis *kernel, unsigned process, const char *path, struct kagzuvis_stat *stat);
int kagzuvis_fstat(kagzuvis *kernel, unsigned process, int fd, struct kagzuvis_stat *stat);
int kagzuvis_link(kagzuvis *kernel, unsigned process, const char *old_path, const char *new_path);
int kagzuvis_unlink(kagzuvis *kernel, unsigned process, const char *path);
int kagzuvis_rename(kagzuvis *kernel, unsigned process, const char *old_path, const char *new_path);
int kagzuvis_exchange(kagzuvis *kernel, unsigned process, const char *old_path, const char *new_path);
int kagzuvis_mkdir(kagzuvis *kernel, unsigned process, const char *path);
int kagzuvis_rmdir(kagzuvis *kernel, unsigned process, const char *path);
/* Returns the names, one piece of memory for `free`, or NULL. */
struct kagzuvis_names *kagzuvis_list(kagzuvis *kernel, unsigned process, const char *path);
int kagzuvis_symlink(kagzuvis *kernel, unsigned process, const char *target, const char *path);
/* Puts as much of the target as there is room for, with no zero byte behind it, and answers how much that was. */
long kagzuvis_readlink(kagzuvis *kernel, unsigned process, const char *path, char *buffer, size_t room);
int kagzuvis_lstat(kagzuvis *kernel, unsigned process, const char *path, struct kagzuvis_stat *stat);
/* Makes a KAGZUVIS_FIFO or a KAGZUVIS_SOCKET. */
int kagzuvis_mknod(kagzuvis *kernel, unsigned process, const char *path, enum kagzuvis_kind kind);
/* A mode has twelve bits, as 0755. */
int kagzuvis_chmod(kagzuvis *kernel, unsigned process, const char *path, unsigned mode);
int kagzuvis_fchmod(kagzuvis *kernel, unsigned process, int fd, unsigned mode);
int kagzuvis_chown(kagzuvis *kernel, unsigned process, const char *path, uint32_t user, uint32_t group);
int kagzuvis_fchown(kagzuvis *kernel, unsigned process, int fd, uint32_t user, uint32_t group);
int kagzuvis_dup(kagzuvis *kernel, unsigned process, int fd);
int kagzuvis_dup2(kagzuvis *kernel, unsigned process, int old_fd, int new_fd);
int kagzuvis_pipe(kagzuvis *kernel, unsigned process, int fds[2]);
/* Answers the number of the process that is made. */
int kagzuvis_fork(kagzuvis *kernel, unsigned process);
int kagzuvis_exit(kagzuvis *kernel, unsigned process);

int kagzuvis_begin(kagzuvis *kernel, unsigned process, unsigned flags);
int kagzuvis_end(kagzuvis *kernel, unsigned process);
/* Answers whether the transaction has begun anew, 1 or 0. */
int kagzuvis_abort(kagzuvis *kernel, unsigned process, int no_restart);

/* What is run as a transaction: 0 is to commit it, anything else to give it up. */
typedef int kagzuvis_function(kagzuvis *kernel, unsigned process, void *argument);

/* Runs a function as a transaction, and once more where that is aborted, so often. Behind an abort each further call of the
 * process fails with KAGZUVIS_ABORTED, until the function has returned; it may not begin, end or abort. Returns 0 where the
 * transaction is committed. Where the function gave it up, what it returned is returned, and `kagzuvis_last` is as it left it;
 * where nothing else is said, -1. */
int kagzuvis_run(kagzuvis *kernel, unsigned process, kagzuvis_function *function, void *argument, unsigned retries);

/* Sends a line ahead, as "1 mkdir /a", without a line feed: many may be sent before their answers are received. It is sent at the
 * latest where an answer is waited for. In a transaction that is for one that no other process gets in the way of: behind an
 * abort the lines that were sent already are done all the same. */
int kagzuvis_send(kagzuvis *kernel, const char *line);

/* Receives the answer to the next line that was sent ahead. Until all are received no other call can be made. */
int kagzuvis_receive(kagzuvis *kernel);

/* Spells bytes as a line wants a path or a text, with a zero byte behind them. Returns the length of the spelling; where that is
 * not below `room`, nothing is written. */
size_t kagzuvis_spell(char *to, size_t room, const void *bytes, size_t count);

#ifdef __cplusplus
}
#endif

#endif
