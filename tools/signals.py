"""The signals that end a run in a transaction: they are blocked, and looked for."""
import os
import signal
import time

ENDING = (signal.SIGINT, signal.SIGTERM, signal.SIGHUP, signal.SIGQUIT)
# What the kernel says of a signal that it sends itself, as a terminal's to the whole group of processes in its foreground.
BY_KERNEL = 0x80
# A signal that follows this soon is the same once more: it was sent to a group of processes, or by two of them.
SAME = 0.3


class Interrupted(Exception):
    """A signal has come: its number."""


def block():
    """Blocks the signals that end a run and that of a child's end. Returns those that end it: not those that are ignored here, as by
    nohup; and the mask that there was."""
    ending = {number for number in ENDING if signal.getsignal(number) is not signal.SIG_IGN}
    signal.signal(signal.SIGCHLD, signal.SIG_DFL)
    return ending, signal.pthread_sigmask(signal.SIG_BLOCK, ending | {signal.SIGCHLD})


def restore(mask):
    """Has signals do what they did before `block`. What ends a write to a pipe that nobody reads ends this process too."""
    for number in (*ENDING, signal.SIGPIPE, signal.SIGXFSZ):
        if number in (signal.SIGPIPE, signal.SIGXFSZ) or signal.getsignal(number) is not signal.SIG_IGN:
            signal.signal(number, signal.SIG_DFL)
    signal.pthread_sigmask(signal.SIG_SETMASK, mask)


class Signals:
    """What has come to this process: the number of the `first` signal that ends it, and whether another one `again`."""

    def __init__(self, ending, mask, parent):
        self.ending, self.mask, self.parent = ending, mask, parent
        self.first, self.again, self.at = None, False, 0
        # The process that gets them too, if one does, and when it got which last.
        self.target, self.passed = None, {}

    def wait(self, seconds):
        """Waits for a signal, or that a child ends, for so long at most (None: for ever)."""
        watched = self.ending | {signal.SIGCHLD}
        try:
            found = signal.sigwaitinfo(watched) if seconds is None else signal.sigtimedwait(watched, max(0, seconds))
        except InterruptedError:
            return
        if found and found.si_signo != signal.SIGCHLD:
            self.note(found)

    def note(self, found):
        now = time.monotonic()
        if self.first is None:
            self.first, self.at = found.si_signo, now
        elif now - self.at > SAME:
            self.again = True
        # Who has started this one was killed: nobody waits for the end.
        self.again = self.again or os.getppid() != self.parent
        if self.target and now - self.passed.get(found.si_signo, -SAME) >= SAME and not self.has_it(found):
            self.passed[found.si_signo] = now
            try:
                os.kill(self.target, found.si_signo)
            except ProcessLookupError:
                pass

    def has_it(self, found):
        """Whether the command has the signal already: the terminal has sent it to all processes of the group."""
        try:
            return found.si_code == BY_KERNEL and os.getpgid(self.target) == os.getpgrp()
        except ProcessLookupError:
            return True

    def look(self):
        """Takes in what has come without waiting."""
        while signal.sigpending() & self.ending:
            self.wait(0)

    def check(self):
        """Raises `Interrupted` where a signal has come."""
        self.look()
        if self.first is not None:
            raise Interrupted(self.first)

    def sleep(self, seconds):
        """Sleeps, but is interrupted by a signal."""
        until = time.monotonic() + seconds
        while (left := until - time.monotonic()) > 0:
            self.wait(left)
            self.check()
