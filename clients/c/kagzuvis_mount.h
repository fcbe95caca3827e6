/*
 * A client of a mounted tree of Kagzuvis in C (C99 and POSIX.1-2008, on Linux): transactions of the tree.
 *
 * A transaction has a view: a path below which stands the whole tree as the transaction sees it, and a descriptor of it for openat.
 * What is done there takes effect together at the end, or never. A call of the system that fails with ECANCELED says that the
 * transaction has lost a conflict; nothing of it is ever done, and the end tells it as well.
 *
 * A transaction belongs to the process and the thread that began it, and ends by them. A process that is forked from it may work in
 * the view, and ends nothing. Nothing of it stays open where another program is executed.
 */
#ifndef KAGZUVIS_MOUNT_H
#define KAGZUVIS_MOUNT_H

#include <pthread.h>
#include <stddef.h>
#include <stdint.h>
#include <sys/types.h>

#ifdef __cplusplus
extern "C" {
#endif

/* Why a function has failed. */
enum kagzuvis_mount_error {
    KAGZUVIS_MOUNT_OK,
    /* The transaction has lost a conflict, and nothing of it was ever done: `cause` says to whom. */
    KAGZUVIS_MOUNT_LOST,
    /* The path is not the root of a mounted tree. */
    KAGZUVIS_MOUNT_NOT_MOUNTED,
    /* The tree was mounted by another user, who alone begins transactions. */
    KAGZUVIS_MOUNT_NOT_ALLOWED,
    /* The path lies in a view, or this thread has a transaction on this tree. Transactions do not nest. */
    KAGZUVIS_MOUNT_NESTED,
    /* The tree was unmounted, or is served no more, before the transaction had ended. */
    KAGZUVIS_MOUNT_UNMOUNTED,
    /* Somebody else has given the transaction up, or taken its view away. */
    KAGZUVIS_MOUNT_ENDED,
    /* The transaction belongs to the process from which this one was forked. */
    KAGZUVIS_MOUNT_FORKED,
    /* The transaction was given up by kagzuvis_mount_give_up, or by the function that was run. */
    KAGZUVIS_MOUNT_GIVEN_UP,
    /* A priority that is none, or another thread than the one that began. */
    KAGZUVIS_MOUNT_MISUSED,
    /* The system has failed, or memory is short: errno says why. Nothing of the transaction is done. */
    KAGZUVIS_MOUNT_SYSTEM
};

/* How a transaction stands. */
enum kagzuvis_mount_state {
    KAGZUVIS_MOUNT_IS_LIVE,
    KAGZUVIS_MOUNT_IS_ABORTED,
    KAGZUVIS_MOUNT_IS_COMMITTED,
    KAGZUVIS_MOUNT_IS_GIVEN_UP,
    /* Its view was taken away, or the tree is served no more. */
    KAGZUVIS_MOUNT_IS_GONE
};

/* Why a transaction was aborted. Of "unsupported", or of a text of another form, there is the text alone. */
struct kagzuvis_mount_cause {
    char text[1280];      /* as "block 3 read by P2" */
    char aspect[16];      /* of what it lost, as "block", or empty */
    char name[256];       /* of an "entry", with a zero byte behind it, else empty */
    uint64_t block;       /* of a "block", else 0 */
    int write;            /* whether that was written, and not only read */
    uint32_t other;       /* the number of the process in the kernel that won, or 0 */
};

/* A transaction. It may be copied or moved no more than a FILE. */
struct kagzuvis_mount_view {
    char path[4096];
    /* Opened without reading names (O_PATH), as that would clash with each name that others make at the top: for openat, fstatat,
     * fchdir; a list is of openat(directory, ".", O_RDONLY). It is closed at the end. */
    int directory;
    /* Where it has lost. */
    struct kagzuvis_mount_cause cause;
    /* What follows is the client's own. */
    int control;
    pid_t owner;
    pthread_t thread;
    dev_t device;
    size_t tree_length;
    int is_over;
    enum kagzuvis_mount_state last;
    enum kagzuvis_mount_error error;
    int error_number;
};

/* Begins a transaction on the tree that is mounted on this path, with a priority from 0 to 7. */
enum kagzuvis_mount_error kagzuvis_mount_begin(struct kagzuvis_mount_view *view, const char *tree, int priority);

/* Ends a transaction and takes its view away. Where that fails nothing of it is done, and it is over as well, but for FORKED and MISUSED.
 * Asked again it answers the same. */
enum kagzuvis_mount_error kagzuvis_mount_end(struct kagzuvis_mount_view *view);

/* Gives a transaction up and takes its view away. One that is over stays as it is. Answers OK, FORKED or MISUSED. */
enum kagzuvis_mount_error kagzuvis_mount_give_up(struct kagzuvis_mount_view *view);

/* How a transaction stands now, or stood at its end. Where it is aborted `cause` of the view says why. */
enum kagzuvis_mount_state kagzuvis_mount_state(struct kagzuvis_mount_view *view);

/* What an error is called, as "Lost". */
const char *kagzuvis_mount_error_name(enum kagzuvis_mount_error error);

/* Reads a cause as a .ctl tells it behind "aborted ". */
void kagzuvis_mount_parse_cause(struct kagzuvis_mount_cause *cause, const char *text);

/* What is run in a transaction: 0 is to commit it, anything else to give it up. It ends nothing itself. */
typedef int kagzuvis_mount_function(const struct kagzuvis_mount_view *view, void *argument);

struct kagzuvis_mount_options {
    int priority;
    unsigned retries;     /* how often the function is run again where its transaction has lost */
};

struct kagzuvis_mount_report {
    int returned;                        /* what the function has returned the last time */
    unsigned attempts;                   /* how often a transaction was begun */
    struct kagzuvis_mount_cause cause;   /* of the last loss, if there was one */
};

/* Runs a function in a transaction, and again in a new one where that has lost, whatever the function has returned; before each new one
 * there is a pause, twice as long each time, from 1 millisecond to 100. `options` and `report` may be NULL: priority 0 and no retries.
 * In the child of a fork that returns from the function it answers FORKED. */
enum kagzuvis_mount_error kagzuvis_mount_run(const char *tree, const struct kagzuvis_mount_options *options,
    kagzuvis_mount_function *function, void *argument, struct kagzuvis_mount_report *report);

typedef void kagzuvis_mount_visitor(const char *name, void *argument);

/* Finds the views that clients in any language have left in a tree, as their processes have ended without ending their transactions, and
 * takes them away where `gives_up` is not 0. `visitor`, which may be NULL, is called with the name of each. */
enum kagzuvis_mount_error kagzuvis_mount_abandoned(const char *tree, int gives_up, kagzuvis_mount_visitor *visitor, void *argument);

#ifdef __cplusplus
}
#endif

#endif
