#!/usr/bin/env python3
"""Tests of the client in Python, on a program that is given.

usage: test_kagzuvis.py PROGRAM [TEST..]
"""
import io
import os
import sys
import threading
import unittest

import kagzuvis
from kagzuvis import APPEND, CREAT, EXCL, RDONLY, RDWR, WRONLY
from kagzuvis import Aborted, BadAnswer, BadLine, Busy, Cause, GivenUp, Kernel, NoProcess, Refused, Stat, StreamEnded

PROGRAM = None
# Each byte that a name can have, once, and all bytes.
ODD_NAME = bytes(byte for byte in range(1, 256) if byte != ord("/"))
ALL_BYTES = bytes(range(256))


class TestCase(unittest.TestCase):
    def kernel(self, *priorities, **options):
        kernel = Kernel(PROGRAM, priorities=priorities or (0,), **options)
        self.addCleanup(kernel.close)
        return kernel

    def assertRefused(self, name, call, *given):
        with self.assertRaises(Refused) as raised:
            call(*given)
        self.assertEqual(raised.exception.name, name)
        return raised.exception


class Calls(TestCase):
    def test_each_call_of_a_file(self):
        process = self.kernel().processes[0]
        self.assertEqual(process.open("/a", RDWR | CREAT), 0)
        self.assertEqual(process.write(0, b"abcdef"), 6)
        self.assertEqual(process.lseek(0, 1), 1)
        self.assertEqual(process.read(0, 3), b"bcd")
        self.assertEqual(process.lseek(0, 1, os.SEEK_CUR), 5)
        self.assertEqual(process.lseek(0, -2, os.SEEK_END), 4)
        self.assertEqual(process.pread(0, 100, 2), b"cdef")
        self.assertEqual(process.pwrite(0, b"xy", 1), 2)
        self.assertEqual(process.fill(0, 3, ord("z")), 3)
        self.assertEqual(process.pfill(0, 1, 0, 8), 1)
        self.assertEqual(process.pread(0, 9, 0), b"axydzzz\0\0")
        self.assertEqual(process.read(0, 0), b"")
        self.assertIsNone(process.ftruncate(0, 4))
        self.assertEqual(process.fstat(0), Stat("file", 4, 1))
        self.assertIsNone(process.truncate("/a", 5))
        self.assertEqual(process.stat("/a"), Stat("file", 5, 1))
        self.assertIsNone(process.fallocate(0, 0, 3000, "GROW"))
        self.assertIsNone(process.fallocate(0, 0, 9000, "KEEP"))
        self.assertEqual(process.lseek(0, 0, 4), 1024)
        self.assertEqual(process.lseek(0, 0, 3), 0)
        self.assertIsNone(process.fallocate(0, 0, 5, "PUNCH"))
        self.assertEqual(process.fstat(0), Stat("file", 3000, 1))
        self.assertEqual(process.dup(0), 1)
        self.assertEqual(process.dup2(0, 7), 7)
        self.assertIsNone(process.close(7))
        self.assertEqual(process.last[:5], (25, 1, "close", None, None))

    def test_each_call_of_names(self):
        process = self.kernel().processes[0]
        self.assertIsNone(process.mkdir("/d"))
        self.assertEqual(process.open("/d/a", WRONLY | CREAT | EXCL | APPEND), 0)
        self.assertIsNone(process.link("/d/a", "/d/b"))
        self.assertEqual(process.stat("/d/a").links, 2)
        self.assertIsNone(process.rename("/d/b", "/c"))
        self.assertIsNone(process.exchange("/c", "/d"))
        self.assertEqual(process.stat("/c"), Stat("dir", 0, 1))
        self.assertIsNone(process.exchange("/d", "/c"))
        self.assertIsNone(process.unlink("/d/a"))
        self.assertEqual(process.list("/"), [b"c", b"d"])
        self.assertEqual(process.list("/d"), [])
        self.assertIsNone(process.rmdir("/d"))
        self.assertEqual(process.stat("/"), Stat("dir", 0, 1))

    def test_each_call_of_links_fifos_and_sockets(self):
        process = self.kernel().processes[0]
        self.assertIsNone(process.symlink(b"../a\xff ", "/l"))
        self.assertEqual(process.readlink("/l"), b"../a\xff ")
        self.assertEqual(process.lstat("/l"), Stat("link", 6, 1))
        self.assertIsNone(process.link("/l", "/k"))
        self.assertEqual(process.lstat("/k"), Stat("link", 6, 2))
        self.assertIsNone(process.mknod("/f", "fifo"))
        self.assertIsNone(process.mknod("/s", "socket"))
        self.assertEqual(process.stat("/f"), Stat("fifo", 0, 1))
        self.assertEqual(process.lstat("/s"), Stat("socket", 0, 1))
        self.assertEqual(process.list("/"), [b"f", b"k", b"l", b"s"])

    def test_each_call_of_modes_and_owners(self):
        process = self.kernel().processes[0]
        process.open("/a", WRONLY | CREAT)
        process.symlink("a", "/l")
        self.assertEqual(process.stat("/a"), Stat("file", 0, 1, 0o644, 0, 0))
        self.assertIsNone(process.chmod("/a", 0o7777))
        self.assertEqual(process.fstat(0), Stat("file", 0, 1, 0o7777))
        self.assertIsNone(process.chown("/a", 1, 2**32 - 1))
        self.assertEqual(process.stat("/a"), Stat("file", 0, 1, 0o1777, 1, 2**32 - 1))
        self.assertIsNone(process.fchown(0, -1, 2))
        self.assertIsNone(process.fchmod(0, 0))
        self.assertEqual(process.stat("/a"), Stat("file", 0, 1, 0, 1, 2))
        self.assertIsNone(process.chown("/l", 3, -1))
        self.assertEqual(process.lstat("/l"), Stat("link", 1, 1, 0o777, 3, 0))
        self.assertEqual(process.stat("/"), Stat("dir", 0, 1, 0o755))

    def test_pipes_and_processes(self):
        parent = self.kernel().processes[0]
        self.assertEqual(parent.pipe(), (0, 1))
        child = parent.fork()
        self.assertEqual(child.pid, 2)
        self.assertIs(child, parent.kernel.process(2))
        self.assertEqual(child.write(1, b"hi"), 2)
        self.assertEqual(parent.read(0, 9), b"hi")
        self.assertRefused("EAGAIN", parent.read, 0, 9)
        self.assertEqual(parent.fstat(0), Stat("pipe", 0, 0))
        self.assertIsNone(child.exit())
        with self.assertRaises(NoProcess):
            child.stat("/")

    def test_a_process_ends_with_its_block(self):
        parent = self.kernel().processes[0]
        parent.pipe()
        with parent.fork() as child:
            child.close(0)
        with parent.fork() as other:
            other.begin(restart=True)
            other.mkdir("/d")
        with self.assertRaises(KeyError):
            with parent.fork() as third:
                third.exit()
                raise KeyError
        for process in (child, other, third):
            self.assertRaises(NoProcess, process.stat, "/")
        self.assertEqual(parent.list("/"), [])
        parent.close(1)
        self.assertEqual(parent.read(0, 1), b"")

    def test_refusals(self):
        process = self.kernel().processes[0]
        process.mkdir("/d")
        process.open("/d/a", RDONLY | CREAT)
        process.pipe()
        process.symlink("d", "/l")
        process.mknod("/f", "fifo")
        for name, call, *given in (
            ("EBADF", process.close, 9),
            ("EBADF", process.write, 0, b"a"),
            ("EEXIST", process.mkdir, "/d"),
            ("EINVAL", process.mkdir, "d"),
            ("EINVAL", process.open, "/d/a", 0),
            ("EISDIR", process.open, "/d", RDONLY),
            ("ENAMETOOLONG", process.stat, "/" + 256 * "a"),
            ("ENOENT", process.stat, "/a"),
            ("ENOTDIR", process.list, "/d/a"),
            ("ENOTEMPTY", process.rmdir, "/d"),
            ("EPERM", process.unlink, "/d"),
            ("EBUSY", process.rmdir, "/"),
            ("ESPIPE", process.lseek, 1, 0),
            ("ESPIPE", process.fallocate, 2, 0, 1, "KEEP"),
            ("EINVAL", process.fallocate, 2, 0, 0, "PUNCH"),
            ("EINVAL", process.exchange, "/d", "/d/a/../a"),
            ("ENOENT", process.exchange, "/d", "/a"),
            ("EFBIG", process.truncate, "/d/a", 2**32 - 1),
            ("ELOOP", process.stat, "/l"),
            ("ENXIO", process.open, "/f", RDONLY),
            ("EINVAL", process.readlink, "/f"),
            ("ENOENT", process.symlink, "", "/k"),
            ("ELOOP", process.chmod, "/l", 0o700),
            ("ENOENT", process.chown, "/a", 1, 2),
            ("EBADF", process.fchmod, 9, 0o700),
            ("EBADF", process.fchown, 9, 1, 2),
            ("NotInTransaction", process.end),
            ("NotInTransaction", process.abort),
        ):
            refused = self.assertRefused(name, call, *given)
            self.assertEqual(refused.answer, process.last)
        process.close(1)
        self.assertRefused("EPIPE", process.write, 2, b"a")

    def test_what_cannot_be_said(self):
        kernel = self.kernel()
        process = kernel.processes[0]
        for call, *given in (
            (process.close, -1),
            (process.close, 2**32),
            (process.open, "/a", 64),
            (process.lseek, 0, 2**63),
            (process.fallocate, 0, 0, 1, "grow"),
            (process.fallocate, 0, 0, 2**63, "GROW"),
            (process.fill, 0, 1, 256),
            (process.mknod, "/f", "pipe"),
            (process.chmod, "/a", 0o10000),
            (process.fchown, 0, -2, 0),
            (kernel.send, b""),
            (kernel.send, b"# 1 end"),
            (kernel.send, b"1 end\n1 end"),
        ):
            with self.assertRaises(ValueError):
                call(*given)
        with self.assertRaises(TypeError):
            process.close("0\n1 exit")
        for priorities in ((), (8,), 4097 * (0,)):
            with self.assertRaises(ValueError):
                Kernel(PROGRAM, priorities=priorities)
        self.assertEqual(kernel.close(), 0)


class Spelling(TestCase):
    def test_odd_bytes_go_and_come_back(self):
        process = self.kernel().processes[0]
        process.open(b"/" + ODD_NAME, RDWR | CREAT)
        self.assertEqual(process.list("/"), [ODD_NAME])
        self.assertEqual(process.write(0, ALL_BYTES), 256)
        self.assertEqual(process.write(0, b""), 0)
        self.assertEqual(process.pread(0, 999, 0), ALL_BYTES)
        process.mkdir("/\xe4")
        self.assertEqual(process.list("/")[-1], "\xe4".encode())
        self.assertRefused("EINVAL", process.mkdir, b"/a\0b")
        self.assertRefused("EINVAL", process.mkdir, b"")

    def test_words_of_answers_are_names_too(self):
        process = self.kernel().processes[0]
        self.assertRefused("EINVAL", process.rename, "->", "->")
        names = [b"->", b"ENOENT", b"by", b"dooms", b"restarted", b"\\e", b"\\x41"]
        for name in names:
            process.mkdir(b"/" + name)
        self.assertEqual(process.list("/"), sorted(names))
        process.open("/f", RDWR | CREAT)
        for text in (b"->", b"dooms P1", b"1 P1", b"\\", b"\n"):
            process.pwrite(0, text, 0)
            self.assertEqual(process.pread(0, len(text), 0), text)

    def test_a_write_of_more_than_a_line_is_short(self):
        process = self.kernel().processes[0]
        process.open("/a", RDWR | CREAT)
        room = kagzuvis.LINE_LIMIT - kagzuvis.BESIDE
        self.assertEqual(process.write(0, b"ab" + bytes(2 * room)), 2 + (room - 2) // 4)
        self.assertEqual(process.lseek(0, 0), 0)
        process.write_all(0, bytes(2**19))
        self.assertEqual(process.fstat(0).size, 2**19)
        self.assertEqual(process.pread(0, 2**40, 2**19 - 3), bytes(3))

    def test_spelled_words_are_read_back(self):
        for data in (b"", b"a", b"\\", b"\\e", ALL_BYTES):
            self.assertEqual(kagzuvis.unspell(kagzuvis.spell(data)), data)
        for word in (b"", b"\\", b"\\x4", b"\\xAB", b"a\\e", b"\\y41"):
            with self.assertRaises(ValueError):
                kagzuvis.unspell(word)


class Transactions(TestCase):
    def setUp(self):
        self.first, self.second = self.kernel(0, 0).processes

    def doom(self):
        """Has the first process read a name that the second one then makes."""
        self.assertRefused("ENOENT", self.first.stat, "/a")
        self.second.mkdir("/a")
        self.assertEqual(self.second.last.dooms, (1,))
        self.second.rmdir("/a")

    def test_one_that_commits(self):
        with self.first.transaction():
            self.first.mkdir("/d")
            self.first.mkdir("/d/e")
            self.assertEqual(self.second.list("/"), [])
        self.assertEqual(self.second.list("/d"), [b"e"])
        self.assertEqual(self.first.last.operation, "end")

    def test_one_that_is_given_up(self):
        with self.assertRaises(KeyError):
            with self.first.transaction():
                self.first.mkdir("/d")
                raise KeyError
        with self.first.transaction():
            self.first.mkdir("/d")
            raise GivenUp
        self.assertIsNone(self.first.run(self.give_up))
        self.assertEqual(self.first.list("/"), [])
        self.assertRefused("NotInTransaction", self.first.end)

    def give_up(self, process):
        process.mkdir("/d")
        raise GivenUp

    def test_a_refusal_gives_up_where_nobody_takes_it(self):
        with self.assertRaises(Refused):
            with self.first.transaction():
                self.first.mkdir("/d")
                self.first.mkdir("/d")
        self.assertEqual(self.first.list("/"), [])

    def test_without_blocks(self):
        self.first.begin()
        self.assertRefused("InTransaction", self.first.begin)
        self.assertIs(self.first.abort(), False)
        self.first.begin(restart=True)
        self.assertIs(self.first.abort(), True)
        self.assertIs(self.first.abort(no_restart=True), False)
        self.first.begin(restart=True, abort_unsupported=True)
        with self.assertRaises(Aborted) as raised:
            self.first.fork()
        self.assertEqual((raised.exception.cause, raised.exception.restarted), (None, False))
        with self.first.transaction():
            self.assertRefused("ENOTSUP", self.first.exit)
            for call in (self.first.begin, self.first.end, self.first.abort):
                self.assertRaises(RuntimeError, call)

    def test_a_block_that_is_aborted_makes_no_further_call(self):
        with self.assertRaises(Aborted) as raised:
            with self.first.transaction():
                self.first.mkdir("/b")
                self.doom()
                for _ in range(2):
                    self.assertRaises(Aborted, self.first.mkdir, "/c")
        self.assertEqual(raised.exception.cause, Cause("entry", b"a", None, False, 2))
        self.assertFalse(raised.exception.restarted)
        self.assertEqual(self.first.list("/"), [])

    def test_a_block_that_is_aborted_at_its_end(self):
        with self.assertRaises(Aborted) as raised:
            with self.first.transaction():
                self.first.mkdir("/b")
                self.doom()
        self.assertEqual(raised.exception.answer.operation, "end")
        self.assertEqual(self.first.list("/"), [])


class Retries(TestCase):
    def setUp(self):
        self.first, self.second = self.kernel(0, 0).processes
        self.second.open("/counter", RDWR | CREAT)
        self.second.pwrite(0, b"7", 0)
        self.tries = 0

    def add(self, process, conflicts=1, at_end=False):
        """Adds 1 to the number in the file. Another process is in its way, so often."""
        self.tries += 1
        fd = process.open("/counter", RDWR)
        number = int(process.pread(fd, 9, 0))
        if self.tries <= conflicts:
            self.second.pwrite(0, b"%d" % (number + 1), 0)
            if at_end:
                return number + 1
        process.pwrite(fd, b"%d" % (number + 1), 0)
        process.close(fd)
        return number + 1

    def test_run(self):
        self.assertEqual(self.first.run(self.add), 9)
        self.assertEqual((self.tries, self.second.pread(0, 9, 0)), (2, b"9"))
        self.assertRefused("NotInTransaction", self.first.end)

    def test_run_that_is_aborted_at_its_end(self):
        self.assertEqual(self.first.run(lambda process: self.add(process, at_end=True)), 9)
        self.assertEqual((self.tries, self.second.pread(0, 9, 0)), (2, b"9"))

    def test_attempts(self):
        for attempt in self.first.attempts(retries=1):
            with attempt:
                self.add(self.first)
        self.assertEqual((self.tries, self.second.pread(0, 9, 0)), (2, b"9"))

    def test_retries_end(self):
        for retries in (0, 2):
            self.tries = 0
            with self.assertRaises(Aborted) as raised:
                self.first.run(lambda process: self.add(process, conflicts=9), retries)
            self.assertEqual(self.tries, retries + 1)
            self.assertEqual(raised.exception.restarted, retries > 0)
            self.assertEqual(raised.exception.cause, Cause("block", None, 0, False, 2))
            self.assertRefused("NotInTransaction", self.first.end)

    def test_another_exception_behind_an_abort_goes_on(self):
        def careless(process):
            try:
                self.add(process)
            except Aborted:
                raise KeyError

        self.assertRaises(KeyError, self.first.run, careless)
        self.assertRefused("NotInTransaction", self.first.end)

    def test_an_abort_that_is_passed_over_is_tried_again(self):
        def careless(process):
            try:
                return self.add(process)
            except Aborted:
                return None

        self.assertEqual(self.first.run(careless), 9)
        self.assertEqual(self.tries, 2)

    def first_number(self):
        for attempt in self.first.attempts():
            with attempt:
                return self.add(self.first, at_end=True)

    def test_a_block_that_is_left_by_return(self):
        self.assertEqual(self.first_number(), 8)
        self.assertRaises(RuntimeError, self.first.stat, "/")

    def test_a_block_that_is_ended_before_return(self):
        for attempt in self.first.attempts():
            with attempt:
                self.add(self.first, at_end=True)
                attempt.end()
                self.assertRaises(RuntimeError, self.first.stat, "/")
                break
        self.assertEqual(self.tries, 2)
        self.assertEqual(self.first.list("/"), [b"counter"])

    def test_an_earlier_transaction_wins(self):
        def touch(process):
            self.tries += 1
            return process.stat("/").kind if self.tries > 1 else process.mkdir("/x")

        with self.first.transaction():
            self.assertRefused("ENOENT", self.first.stat, "/x")
            self.assertEqual(self.second.run(touch), "dir")
        self.assertEqual(self.tries, 2)


class Conflicts(TestCase):
    def test_busy(self):
        first, second = self.kernel(1, 0).processes
        with first.transaction():
            self.assertRefused("ENOENT", first.stat, "/a b")
            with self.assertRaises(Busy) as raised:
                second.mkdir("/a b")
        self.assertEqual(raised.exception.cause, Cause("entry", b"a b", None, True, 1))
        self.assertIsNone(second.mkdir("/a b"))

    def test_a_read_and_a_refusal_can_doom(self):
        first, second, third = self.kernel(0, 0, 1).processes
        for process in (first, second):
            process.begin()
            process.list("/")
        third.begin()
        third.mkdir("/dooms")
        self.assertEqual(third.last.dooms, (1, 2))
        self.assertIsNone(third.last.error)
        third.end()

    def test_threads_share_a_kernel(self):
        kernel = self.kernel(0, 0, 0, 0)

        def work(process):
            for number in range(50):
                process.mkdir(f"/{process.pid}-{number}")

        threads = [threading.Thread(target=work, args=(process,)) for process in kernel.processes]
        for thread in threads:
            thread.start()
        for thread in threads:
            thread.join()
        self.assertEqual(len(kernel.processes[0].list("/")), 200)


class Streams(TestCase):
    def test_a_bad_line(self):
        kernel = self.kernel()
        kernel.processes[0].mkdir("/a")
        for line, fault in ((b"1 frob", "line 3: unknown operation"), (b"\xff", "line 4: process number expected")):
            with self.assertRaises(BadLine) as raised:
                kernel.send(line).result()
            self.assertEqual(raised.exception.fault, fault)
        self.assertRaises(BadLine, kernel.processes[0].stat, "/" + "a" * kagzuvis.LINE_LIMIT)
        self.assertEqual(kernel.processes[0].list("/"), [b"a"])
        self.assertEqual(kernel.send(b"1 list /").answer()[:4], (3, 1, "list", [b"a"]))
        self.assertEqual(kernel.close(), 1)

    def test_the_end(self):
        with Kernel(PROGRAM, check=True, limit=100, file_limit=10) as kernel:
            process = kernel.processes[0]
            process.open("/a", WRONLY | CREAT)
            self.assertEqual(process.write(0, 20 * b"a"), 10)
        self.assertEqual((kernel.status, kernel.checked), (0, True))
        with self.assertRaises(StreamEnded) as raised:
            process.stat("/")
        self.assertEqual(raised.exception.status, 0)

    def test_bounds(self):
        with Kernel(PROGRAM, check=True, descriptors=100, path_limit=5) as kernel:
            process = kernel.processes[0]
            opened = [process.open("/a", WRONLY | CREAT) for _ in range(100)]
            self.assertEqual(opened, list(range(100)))
            self.assertRefused("EMFILE", process.dup, 0)
            self.assertRefused("EBADF", process.dup2, 0, 100)
            process.mkdir("/abcd")
            self.assertRefused("ENAMETOOLONG", process.mkdir, "/abcde")
        self.assertEqual((kernel.status, kernel.checked), (0, True))

    def test_an_end_before_the_end(self):
        kernel = self.kernel(limit=1)
        process = kernel.processes[0]
        process.mkdir("/a")
        laters = [process.ahead().stat("/a"), process.ahead().begin(), process.ahead().stat("/a")]
        self.assertEqual(laters[0].result().kind, "dir")
        for call in (laters[1].result, laters[2].result, lambda: process.stat("/a")):
            with self.assertRaises(StreamEnded) as raised:
                call()
            self.assertEqual(raised.exception.status, 3)

    def test_a_block_of_a_kernel_that_ends_early(self):
        with self.assertRaises(StreamEnded) as raised:
            with Kernel(PROGRAM, limit=0) as kernel:
                with kernel.processes[0].transaction():
                    self.fail("a transaction without a place")
        self.assertEqual(raised.exception.status, 3)

    def test_many_lines_ahead(self):
        process = self.kernel().processes[0]
        ahead = process.ahead()
        process.open("/f", RDWR | CREAT)
        laters = [ahead.pwrite(0, b"%05d" % number, 5 * number) for number in range(5000)]
        laters += [ahead.pread(0, 5, 5 * number) for number in range(5000)]
        laters.append(ahead.stat("/none"))
        # A call behind them waits for their answers, too.
        self.assertEqual(process.stat("/f").size, 25000)
        self.assertEqual({later.result() for later in laters[:5000]}, {5})
        self.assertEqual([int(later.result()) for later in laters[5000:-1]], list(range(5000)))
        self.assertRefused("ENOENT", laters[-1].result)

    def test_answers_that_are_larger_than_pipes(self):
        process = self.kernel().processes[0]
        process.open("/f", RDWR | CREAT)
        process.fill(0, 100000, ord("a"))
        laters = [process.ahead().pread(0, 100000, 0) for _ in range(20)]
        self.assertEqual({later.result() for later in laters}, {100000 * b"a"})

    def test_the_trace(self):
        trace = io.StringIO()
        process = self.kernel(trace=trace).processes[0]
        process.mkdir("/a")
        process.open(b"/\xff", WRONLY | CREAT)
        self.assertEqual(trace.getvalue(), "1 P1 mkdir /a -> ok\n2 P1 open /\\xff WRONLY,CREAT -> 0\n")


class HostileAnswers(TestCase):
    LINES = (
        b"",
        b" ",
        b"?",
        b"1",
        b"1 P1",
        b"1 P1 mkdir",
        b"1 P1 mkdir /a",
        b"1 P1 mkdir /a ->",
        b"1 P1 mkdir /a -> ",
        b"1 P1 mkdir /a -> okay",
        b"1 P1 mkdir /a -> ok ",
        b"1 P1 mkdir /a -> ok dooms",
        b"1 P1 mkdir /a -> ok dooms P",
        b"1 P1 mkdir /a -> ok dooms P2,",
        b"1 P1 mkdir /a /b -> ok",
        b"1 P1 mkdir  -> ok",
        b"1 1 mkdir /a -> ok",
        b"x P1 mkdir /a -> ok",
        b"1 P1 frob /a -> ok",
        b"1 P1 read 0 9 -> 2 a",
        b"1 P1 read 0 9 -> 1",
        b"1 P1 read 0 9 -> 1 \\",
        b"1 P1 read 0 9 -> 1 \\x4",
        b"1 P1 read 0 9 -> 1 \\xAA",
        b"1 P1 open /a RDONLY -> -1",
        b"1 P1 open /a RDONLY -> 4294967296",
        b"1 P1 stat /a -> file size 1 links",
        b"1 P1 stat /a -> door size 1 links 1",
        b"1 P1 stat /a -> file size 1 links 1 mode",
        b"1 P1 stat /a -> file size 1 links 1 mode 8",
        b"1 P1 stat /a -> file size 1 links 1 mode 10000",
        b"1 P1 stat /a -> file size 1 links 1 owner 1",
        b"1 P1 stat /a -> file size 1 links 1 owner 1 2 mode 7",
        b"1 P1 chmod /a -> ok",
        b"1 P1 readlink /a -> ok",
        b"1 P1 symlink a -> ok",
        b"1 P1 list / -> names 2 a",
        b"1 P1 list / -> names 99999999999999999999 a",
        b"1 P1 list / -> names 1 a b",
        b"1 P1 pipe -> 0",
        b"1 P1 begin RESTART RESTART -> begun",
        b"1 P1 end -> aborted",
        b"1 P1 end -> aborted entry",
        b"1 P1 end -> aborted entry a read by 2",
        b"1 P1 end -> aborted block a read by P2",
        b"1 P1 end -> busy names seen by P2",
        b"1 P1 end -> aborted unsupported restarted restarted",
        b"99999999999999999999 P1 end -> committed",
    )

    def over(self, text):
        """Returns a kernel that has given all its answers already."""
        (reader, to_reader), (from_writer, writer) = os.pipe(), os.pipe()
        os.write(to_reader, text)
        os.close(to_reader)
        self.addCleanup(os.close, from_writer)
        kernel = Kernel.over(reader, writer)
        self.addCleanup(self.close, kernel)
        return kernel

    def close(self, kernel):
        try:
            kernel.close()
        except BadAnswer:
            pass

    def test_lines_that_are_no_answers(self):
        for line in self.LINES:
            self.assertIsInstance(kagzuvis.parse(line).error, BadAnswer, line)

    def test_answers_to_something_else(self):
        kernel = self.over(b"1 P2 mkdir /a -> ok\n2 P1 rmdir /a -> ok\n3 P1 mkdir /a -> ok\n4 P1 exit -> ok")
        process = kernel.processes[0]
        self.assertRaises(BadAnswer, process.mkdir, "/a")
        self.assertRaises(BadAnswer, process.mkdir, "/a")
        self.assertIsNone(process.mkdir("/a"))
        # The last line has no end.
        with self.assertRaises(StreamEnded) as raised:
            process.exit()
        self.assertIsNone(raised.exception.status)

    def test_an_answer_that_nobody_asked_for(self):
        kernel = self.over(b"1 P1 mkdir /a -> ok\n")
        self.assertRaises(BadAnswer, kernel.close)

    def test_a_program_that_is_none(self):
        self.assertRaises(OSError, Kernel, "/nonexistent/program")
        with self.assertRaises(StreamEnded):
            Kernel("false").processes[0].mkdir("/a")


def main(words):
    global PROGRAM
    if not words:
        sys.exit(__doc__)
    PROGRAM = words[0]
    unittest.main(argv=["test_kagzuvis.py", *words[1:]])


if __name__ == "__main__":
    main(sys.argv[1:])
