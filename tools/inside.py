"""A command inside of a transaction: in a mount namespace of its own, where the view stands in the place of the tree.

All that comes of the command is found by its descent: this process is made the one that gets children whose parent has ended
(PR_SET_CHILD_SUBREAPER), so whatever they do they stay below it, and it has no other child. By their mount namespace they would not be
found where they make a further one, and a PID namespace would change what the command sees of /proc and of its own number.
"""
import ctypes
import errno
import os
import signal
import time

from signals import restore
from transaction import why

# <sched.h>, <sys/mount.h> and <sys/prctl.h>
CLONE_NEWNS, CLONE_NEWUSER = 0x00020000, 0x10000000
MS_BIND, MS_REC, MS_PRIVATE = 0x1000, 0x4000, 0x40000
PR_SET_PDEATHSIG, PR_SET_CHILD_SUBREAPER = 1, 36
# How long a process may outlive the command before it is told of: some end with it, but a little later.
QUIET = 0.1
# How long those that are ended have before they are killed, how often they are looked for then, and how long until they are left.
GRACE, EACH, STUCK = 2, 0.1, 10
# How many processes are told by name, and how long the words may be that are told of what could not be started.
SHOWN, TOLD = 10, 4096
NOT_EXECUTABLE, NOT_FOUND = 126, 127
LIBRARY = ctypes.CDLL(None, use_errno=True)


class NotStarted(Exception):
    """The command could not be put into the transaction, and why."""


class NotRun(Exception):
    """The command could not be run, and why: `status` is a shell's."""

    def __init__(self, error, status):
        super().__init__(error)
        self.status = status


class NotEnded(Exception):
    """Processes of the command are left that cannot be ended."""


def say(text):
    """Tells a line on standard error, if anybody can read it."""
    try:
        os.write(2, b"txrun: " + os.fsencode(text) + b"\n")
    except OSError:
        pass


def ask(result):
    """Raises an OSError where a call of the C library has failed."""
    if result != 0:
        number = ctypes.get_errno()
        raise OSError(number, os.strerror(number))


def become_reaper():
    """Has this process get all children below it whose parent has ended."""
    ask(LIBRARY.prctl(PR_SET_CHILD_SUBREAPER, 1, 0, 0, 0))


def die_with_parent(number):
    """Has this process get a signal when its parent has ended."""
    ask(LIBRARY.prctl(PR_SET_PDEATHSIG, int(number), 0, 0, 0))


def isolate():
    """Gives this process a mount namespace of its own, with a user namespace where it may make none without."""
    user, group = os.geteuid(), os.getegid()
    if LIBRARY.unshare(CLONE_NEWNS) != 0:
        ask(LIBRARY.unshare(CLONE_NEWUSER | CLONE_NEWNS))
        for name, text in ("setgroups", "deny"), ("uid_map", f"0 {user} 1"), ("gid_map", f"0 {group} 1"):
            with open(f"/proc/self/{name}", "w", encoding="ascii") as file:
                file.write(text)
    # Nothing that is mounted here is seen outside.
    ask(LIBRARY.mount(None, b"/", None, MS_REC | MS_PRIVATE, None))


def enter(view, tree):
    """Puts the view into the place of the tree, and keeps the working directory: that of the view, where it is in the tree."""
    try:
        here = os.path.realpath(os.getcwd())
    except OSError:
        # It has no path any more, so it is none of the view's.
        here = None
    isolate()
    ask(LIBRARY.mount(os.fsencode(view), os.fsencode(tree), None, MS_BIND, None))
    if here and (here == tree or here.startswith(tree.rstrip("/") + "/")):
        try:
            os.chdir(here)
        except OSError as error:
            raise OSError(error.errno, f"the working directory {here}: {why(error)}") from None


def execute(words, environment):
    """Becomes the command. A file that no program is named for is the shell's, as a shell has it."""
    try:
        os.execvpe(words[0], words, environment)
    except OSError as error:
        if error.errno != errno.ENOEXEC:
            raise
        os.execvpe("sh", ["sh", error.filename or words[0], *words[1:]], environment)


def run_child(transaction, words, environment, mask, told):
    """What the child does. What fails is told on a pipe: how far it came, the error's number and the reason."""
    stage = "start"
    try:
        enter(transaction.view, transaction.tree)
        # Behind `enter`, since a new user namespace takes that back.
        die_with_parent(signal.SIGKILL)
        stage = "run"
        restore(mask)
        execute(words, environment)
    except (OSError, ValueError) as error:
        number = getattr(error, "errno", None) or 0
        os.write(told, os.fsencode(f"{stage}:{number}:{why(error) if isinstance(error, OSError) else error}")[:TOLD])
    finally:
        os._exit(NOT_FOUND)


def start(transaction, words, environment, mask):
    """Starts the command. Returns its process, or raises `NotStarted` or `NotRun`."""
    if not words[0]:
        raise NotRun("a command without a name: not found", NOT_FOUND)
    heard, told = os.pipe()
    child = os.fork()
    if child == 0:
        os.close(heard)
        run_child(transaction, words, environment, mask, told)
    os.close(told)
    with open(heard, "rb") as file:
        failure = os.fsdecode(file.read())
    if not failure:
        return child
    os.waitpid(child, 0)
    stage, number, reason = failure.split(":", 2)
    if stage == "start":
        raise NotStarted(reason)
    if int(number) in (errno.ENOENT, errno.ENOTDIR):
        raise NotRun(f"{words[0]}: not found", NOT_FOUND)
    raise NotRun(f"{words[0]}: cannot be run: {reason}", NOT_EXECUTABLE)


def processes_below(top):
    """Returns the processes below one that have not ended, each with its name."""
    names, below, found, open_ones = {}, {}, {}, [top]
    for entry in os.listdir("/proc"):
        if entry.isdigit():
            try:
                with open(f"/proc/{entry}/stat", "rb") as file:
                    head, _, tail = file.read().rpartition(b")")
            except OSError:
                continue
            state, parent = tail.split()[:2]
            names[int(entry)] = None if state in b"ZX" else os.fsdecode(head.partition(b"(")[2])
            below.setdefault(int(parent), []).append(int(entry))
    while open_ones:
        for child in below.get(open_ones.pop(), ()):
            open_ones.append(child)
            if names[child] is not None:
                found[child] = names[child]
    return found


def send(number):
    """Sends a signal to all processes below this one."""
    for process in processes_below(os.getpid()):
        try:
            os.kill(process, number)
        except OSError:
            continue


class Running:
    """A command that runs, and all that comes of it."""

    def __init__(self, child, signals, kill_after):
        self.child, self.signals, self.kill_after = child, signals, kill_after
        # Its status once it has ended, and when those that are left then are told of, ended and killed.
        self.status, self.tell_at, self.end_at, self.kill_at, self.killed_at = None, None, None, None, None
        signals.target, signals.passed = child, {}

    def reap(self):
        """Takes in all that have ended. Returns whether any are left."""
        while True:
            try:
                process, status = os.waitpid(-1, os.WNOHANG)
            except ChildProcessError:
                return False
            if process == 0:
                return True
            if process == self.child:
                self.status = 128 + os.WTERMSIG(status) if os.WIFSIGNALED(status) else os.WEXITSTATUS(status)
                self.signals.target = None
                self.tell_at = time.monotonic() + QUIET
                if self.kill_after is not None:
                    self.end_at = time.monotonic() + self.kill_after

    def tell_left(self):
        """Tells which processes outlive the command."""
        left = processes_below(os.getpid())
        self.tell_at = None
        if left and self.signals.first is None:
            names = ", ".join(f"{name} ({process})" for process, name in sorted(left.items())[:SHOWN])
            more = f" and {len(left) - SHOWN} more" if len(left) > SHOWN else ""
            until = "waited for" if self.kill_after is None else f"ended in {self.kill_after:g} s"
            which = "1 process outlives" if len(left) == 1 else f"{len(left)} processes outlive"
            say(f"{which} the command, to be {until}: {names}{more}")

    def plan(self, now):
        """Says when processes are ended and killed: behind a signal what outlives the command at once, and all behind a second one."""
        if self.signals.first is not None and self.status is not None:
            self.end_at = now if self.end_at is None else min(self.end_at, now)
        if self.signals.again:
            self.kill_at = now if self.kill_at is None else min(self.kill_at, now)

    def end_left(self, now):
        """Ends and kills what is to be ended by now. Returns how long to wait for something to happen, None where that is for ever."""
        self.plan(now)
        is_ended = self.end_at is not None and self.end_at <= now
        if self.tell_at is not None and (is_ended or self.tell_at <= now):
            self.tell_left()
        if is_ended and self.kill_at is None:
            send(signal.SIGTERM)
            self.kill_at = now + GRACE
        if self.kill_at is not None and self.kill_at <= now:
            self.killed_at = self.killed_at or now
            if now - self.killed_at > STUCK:
                raise NotEnded(f"{len(processes_below(os.getpid()))} processes of the command cannot be ended")
            send(signal.SIGKILL)
            return EACH
        untils = [it for it in (self.tell_at, self.end_at if self.kill_at is None else self.kill_at) if it is not None]
        return min(untils) - now if untils else None

    def wait(self):
        """Waits for the command and all that outlives it. Returns the command's status as a shell has it."""
        while self.reap():
            self.signals.wait(self.end_left(time.monotonic()))
        self.signals.target = None
        return self.status


def environment(changed):
    """Returns what this process was given as its environment, with these changes: where that names no locale, Python has put one
    into os.environ."""
    with open("/proc/self/environ", "rb") as file:
        pairs = [pair.partition(b"=") for pair in file.read().split(b"\0")]
    found = {name: value for name, equals, value in reversed(pairs) if equals}
    return {**found, **{os.fsencode(name): os.fsencode(value) for name, value in changed.items()}}


def run(transaction, words, signals, kill_after, changed):
    """Runs a command in a transaction, with these changes of the environment, and returns its status when nothing of it is left."""
    child = start(transaction, words, environment({"KAGZUVIS_TRANSACTION": transaction.name, **changed}), signals.mask)
    return Running(child, signals, kill_after).wait()
