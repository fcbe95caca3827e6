"""Puts the lines of crates/bench and of the peers side by side, row by row, with their ratios.

Reads lines from standard input, each with tabs between: how it was measured, the row's name, a number of calls, their
nanoseconds, and their requests for memory. Of each row the measurement with the least time a call counts. Prints tables.
"""

import sys
from collections import namedtuple

Figure = namedtuple("Figure", "calls nanos requests")

CALLS = [
    "mkdir of 1000 names",
    "stat of one name of 1000",
    "stat along 8 names",
    "list of 1000 names",
    "rmdir of 1000 names",
    "mkdir of 100000 names",
    "rmdir refused, 100000 names",
    "rmdir of 100000 names",
    "mkdir of 500000 names",
    "mkdir of 1000000 names",
    "rename",
    "exchange of two names of 1000",
    "unlink",
    "symlink of 1000 names",
    "readlink",
    "lstat of a symbolic link",
    "unlink of a symbolic link",
    "mknod of 1000 FIFOs",
    "unlink of a FIFO",
    "create, write 64 bytes, close",
    "open, read 64 bytes, close",
    "pwrite 64 bytes anywhere",
    "pread 64 bytes anywhere",
    "truncate of one file of 1000",
    "chmod of one file of 1000",
    "chown of one file of 1000",
    "pipe, write and read 64 bytes",
    "fork and exit",
]

# Each row of these is a ratio to the first of its group.
GROWTH = [
    ["1 idle process", "4000 idle processes"],
    ["1 live transaction", "10 live transactions", "100 live transactions", "1000 live transactions"],
    ["1 entry", "1000 entries", "1000000 entries"],
]

DESCRIPTORS = ["1 open descriptor", "1000 open descriptors", "10000 open descriptors"]

LENGTHS = ["transactions of 10 calls", "transactions of 10000 calls"]

FILES = [
    f"{name}, {size} MiB"
    for name in (
        "write 4 KiB at the end",
        "lseek, write 4 KiB anywhere",
        "pwrite 4 KiB anywhere",
        "lseek, read 4 KiB anywhere",
        "pread 4 KiB anywhere",
        "ftruncate by one byte",
        "truncate by one byte",
        "lseek to the next data",
        "fallocate, punch 4 KiB anywhere",
        "ftruncate a gap to no byte",
    )
    for size in (1, 16, 256, 1024)
]

BULK = "write 256 MiB by 64 KiB"

THREADS = ["1 thread", "2 threads", "4 threads"]

READING = ["read a script", "read a schedule", "put the steps in order"]

STEPS = "make the steps"

PRINTING = "print the transcript"

TRANSCRIPT = ["format a million lines", "print a million lines", "write as many bytes"]

CHECK = ["run the calls", "check them"]


def read(lines):
    """The best measurement of each row, by how it was measured and its name."""
    best = {}
    for line in lines:
        way, row, calls, nanos, requests = line.rstrip("\n").split("\t")
        calls = int(calls)
        found = Figure(calls, int(nanos) / calls, int(requests) / calls)
        key = (way, row)
        if key not in best or found.nanos < best[key].nanos:
            best[key] = found
    return best


def nanos_of(best, way, row):
    figure = best.get((way, row))
    return figure.nanos if figure else None


def requests_of(best, way, row):
    figure = best.get((way, row))
    return figure.requests if figure else None


def ratio(upper, lower):
    return upper / lower if upper is not None and lower else None


def count(value):
    return "-" if value is None else f"{value:,.0f}"


def decimal(value):
    return "-" if value is None else f"{value:,.1f}"


def times(value):
    return "-" if value is None else f"{value:,.2f}"


def print_table(head, rows):
    """A table whose first column is text and whose others are numbers."""
    widths = [max(len(row[column]) for row in [head, *rows]) for column in range(len(head))]

    def line(cells):
        texts = [cells[0].ljust(widths[0])] + [cell.rjust(width) for cell, width in zip(cells[1:], widths[1:])]
        return "| " + " | ".join(texts) + " |"

    print(line(head))
    print("|" + "|".join("-" * (width + 2) for width in widths) + "|")
    for row in rows:
        print(line(row))
    print()


def wanted(row):
    """How many calls the row's name says, where it is one of many names."""
    words = row.split()
    return int(words[2]) if row.startswith("mkdir of ") else 0


def print_calls(best):
    print("Calls: nanoseconds and requests for memory a line (those that the making of the call asks are among them)\n")
    rows = []
    notes = []
    for row in CALLS:
        plain = nanos_of(best, "plain", row)
        within = nanos_of(best, "within", row)
        tmpfs = nanos_of(best, "tmpfs", row)
        peer = nanos_of(best, "peer", row)
        rows.append(
            [
                row,
                count(plain),
                decimal(requests_of(best, "plain", row)),
                count(within),
                decimal(requests_of(best, "within", row)),
                times(ratio(within, plain)),
                count(nanos_of(best, "whole", row)),
                count(tmpfs),
                times(ratio(plain, tmpfs)),
                count(peer),
                times(ratio(plain, peer)),
            ]
        )
        figure = best.get(("plain", row))
        if figure and figure.calls < wanted(row):
            notes.append(f"{row}: only the first {figure.calls:,}, which took all the time that a row has")
    print_table(
        [
            "",
            "plain",
            "requests",
            "in a transaction",
            "requests",
            "to plain",
            "with begin and end",
            "tmpfs",
            "plain to tmpfs",
            "peer",
            "plain to peer",
        ],
        rows,
    )
    for note in notes:
        print(note + "\n")


def print_groups(best, groups):
    rows = []
    for group in groups:
        first_plain = nanos_of(best, "plain", group[0])
        first_within = nanos_of(best, "within", group[0])
        for row in group:
            plain = nanos_of(best, "plain", row)
            within = nanos_of(best, "within", row)
            rows.append(
                [
                    row,
                    count(plain),
                    times(ratio(plain, first_plain)),
                    count(within),
                    times(ratio(within, first_within)),
                ]
            )
    print_table(["beside", "plain", "to the first", "in a transaction", "to the first"], rows)


def print_growth(best):
    print("Growth: nanoseconds of a mkdir, and how often the first row of the group goes into it\n")
    print_groups(best, GROWTH)
    print("Open descriptors: nanoseconds of an open and a close, and how often the first row goes into them\n")
    print_groups(best, [DESCRIPTORS])


def print_lengths(best):
    print("Transactions of mkdirs: nanoseconds a call\n")
    rows = []
    for row in LENGTHS:
        plain = nanos_of(best, "plain", row)
        within = nanos_of(best, "within", row)
        rows.append(
            [
                row,
                count(plain),
                count(within),
                times(ratio(within, plain)),
                count(nanos_of(best, "end", row)),
                count(nanos_of(best, "abort", row)),
            ]
        )
    print_table(["", "plain", "call", "to plain", "end, a call", "abort, a call"], rows)


def print_files(best):
    print("Files of many bytes: nanoseconds and requests for memory a line, 100 of each (of the last one)\n")
    rows = []
    for row in FILES:
        plain = nanos_of(best, "plain", row)
        within = nanos_of(best, "within", row)
        tmpfs = nanos_of(best, "tmpfs", row)
        rows.append(
            [
                row,
                count(plain),
                decimal(requests_of(best, "plain", row)),
                count(within),
                decimal(requests_of(best, "within", row)),
                times(ratio(within, plain)),
                count(nanos_of(best, "end", row)),
                count(tmpfs),
                times(ratio(plain, tmpfs)),
            ]
        )
    print_table(
        [
            "",
            "plain",
            "requests",
            "in a transaction",
            "requests",
            "to plain",
            "its end",
            "tmpfs",
            "plain to tmpfs",
        ],
        rows,
    )
    print("A file of 256 MiB, written by 64 KiB: nanoseconds a MiB, and the most memory that the process held, in KiB\n")
    rows = []
    for way in ("plain", "within", "end", "tmpfs"):
        rows.append([way, count(nanos_of(best, way, BULK)), count(nanos_of(best, f"{way} peak", BULK))])
    print_table(["", "a MiB", "KiB"], rows)


def print_lock(best):
    print("The one lock: a stat by so many threads, nanoseconds a call of all, and calls a second against a step's\n")
    step = nanos_of(best, "step", THREADS[0])
    peer = nanos_of(best, "peer", THREADS[0])
    rows = []
    for row in THREADS:
        through = nanos_of(best, "turnstile", row)
        mutex = nanos_of(best, "mutex", row)
        rows.append(
            [
                row,
                count(nanos_of(best, "step", row)),
                count(through),
                times(ratio(step, through)),
                count(nanos_of(best, "peer", row)),
                count(mutex),
                times(ratio(peer, mutex)),
            ]
        )
    print_table(["", "step", "turnstile", "to a step", "peer", "peer, Mutex", "to the peer"], rows)


def print_edges(best):
    print("The edges: a script of 60,000 lines, nanoseconds a line\n")
    steps = nanos_of(best, "edge", STEPS)
    rows = []
    for row in [*READING, PRINTING, STEPS]:
        nanos = nanos_of(best, "edge", row)
        rows.append([row, count(nanos), times(ratio(nanos, steps))])
    print_table(["", "a line", "to the steps"], rows)
    print("A transcript of a million lines: nanoseconds a line\n")
    bytes_alone = nanos_of(best, "transcript", TRANSCRIPT[2])
    rows = []
    for row in TRANSCRIPT:
        nanos = nanos_of(best, "transcript", row)
        rows.append([row, count(nanos), times(ratio(nanos, bytes_alone))])
    by_c = nanos_of(best, "tmpfs", TRANSCRIPT[1])
    rows.append(["print a million lines by C's fprintf", count(by_c), times(ratio(by_c, bytes_alone))])
    print_table(["", "a line", "to the bytes"], rows)


def print_check(best):
    print("The check of a history of 100,000 calls over 10,000 names: nanoseconds a call\n")
    run = nanos_of(best, "check", CHECK[0])
    rows = []
    for row in CHECK:
        nanos = nanos_of(best, "check", row)
        rows.append([row, count(nanos), times(ratio(nanos, run))])
    print_table(["", "a call", "to the run"], rows)


def worst(pairs):
    """The greatest of named figures, with its name."""
    known = [(value, name) for name, value in pairs if value is not None]
    return max(known, default=(None, "not measured"))


def growth_ratios(best):
    for group in GROWTH:
        for way in ("plain", "within"):
            first = nanos_of(best, way, group[0])
            for row in group[1:]:
                yield f"{row}, {way}", ratio(nanos_of(best, way, row), first)


def calls_ratios(best, upper, lower):
    for row in CALLS:
        yield row, ratio(nanos_of(best, upper, row), nanos_of(best, lower, row))


def more_requests(best):
    for row in CALLS:
        within = requests_of(best, "within", row)
        plain = requests_of(best, "plain", row)
        yield row, None if within is None or plain is None else within - plain


def lock_ratios(best):
    step = nanos_of(best, "step", THREADS[0])
    one = nanos_of(best, "turnstile", THREADS[0])
    yield "through the turnstile by 1 thread, to a step, at most 1.25", ratio(one, step), THREADS[0]
    slowest = worst((row, ratio(nanos_of(best, "turnstile", row), one)) for row in THREADS[1:])
    yield "calls a second of 2 and 4 threads, to 1, at least 0.7", ratio(1, slowest[0]), slowest[1]


def edge_ratios(best):
    steps = nanos_of(best, "edge", STEPS)
    parts = [nanos_of(best, "edge", row) for row in [*READING, PRINTING]]
    edges = None if None in parts else sum(parts)
    yield "reading and printing, to the steps, at most 0.5", ratio(edges, steps), "60,000 lines"
    printed = nanos_of(best, "transcript", TRANSCRIPT[1])
    written = nanos_of(best, "transcript", TRANSCRIPT[2])
    yield "printing, to writing the bytes, at most 2", ratio(printed, written), TRANSCRIPT[1]


def print_goals(best):
    """The worst row of each goal."""
    print("Goals, and the row that is furthest from each\n")
    list_row = "list of 1000 names"
    listed = requests_of(best, "plain", list_row)
    goals = [
        ("plain call, to tmpfs, at most 1.0", *worst(calls_ratios(best, "plain", "tmpfs"))),
        ("plain call, to the peer, at most 3", *worst(calls_ratios(best, "plain", "peer"))),
        ("call in a transaction, to plain, at most 1.3", *worst(calls_ratios(best, "within", "plain"))),
        ("growth, at most 1.2", *worst(growth_ratios(best))),
        ("requests of a stat, at most 2", requests_of(best, "plain", CALLS[1]), CALLS[1]),
        ("requests of a mkdir, at most 4", requests_of(best, "plain", CALLS[0]), CALLS[0]),
        ("further requests in a transaction, at most 1", *worst(more_requests(best))),
        ("requests of a list for each name, at most 1", ratio(listed, 1000), list_row),
        *lock_ratios(best),
        *edge_ratios(best),
    ]
    print_table(["", "is", "at"], [[goal, times(value), row] for goal, value, row in goals])


def main():
    best = read(sys.stdin)
    for part in (print_calls, print_growth, print_lengths, print_files, print_lock, print_edges, print_check, print_goals):
        part(best)


main()
