"""Runs tests side by side, counts them, and tells how they go on."""
import contextlib
import os
import signal
import subprocess
import sys
import threading
import time
from concurrent.futures import ThreadPoolExecutor

from clock import Clock, span

# A test that runs for longer has got stuck, however slow the machine is.
STUCK = 3600
# What compiling a crate's tests takes of memory, in bytes.
MEMORY = 1_500_000_000


def lanes():
    """Returns how many things to do side by side: one a processor that there is to use, as many as the free memory holds."""
    found = len(os.sched_getaffinity(0))
    with contextlib.suppress(OSError, ValueError):
        with open("/sys/fs/cgroup/cpu.max") as it:
            quota, period = it.read().split()
            found = min(found, max(1, int(quota) // int(period)))
    with contextlib.suppress(OSError, StopIteration):
        with open("/proc/meminfo") as lines:
            free = next(int(line.split()[1]) for line in lines if line.startswith("MemAvailable:")) * 1024
            found = min(found, max(1, free // MEMORY))
    return found


class Group:
    """Tests that are told of together: how many there are, and how they ended."""

    def __init__(self, name):
        self.name, self.count, self.passed, self.failed, self.begin = name, 0, 0, 0, None

    def is_done(self):
        return self.passed + self.failed == self.count

    def start(self):
        """Notes that a test of it is at work."""
        self.begin = self.begin or time.monotonic()

    def seconds(self):
        return time.monotonic() - (self.begin or time.monotonic())


class Trials:
    """All that is tried in one run. Tasks are calls, which may add tests and further tasks."""

    def __init__(self, name):
        # (one more than processors: what is tried on a mounted tree waits for a third of its time)
        self.pool, self.change, self.left = ThreadPoolExecutor(lanes() + 1), threading.Condition(), 0
        self.groups, self.at_work, self.left_out, self.children, self.is_ending = [], {}, [], set(), False
        self.clock = Clock(name, self.text)

    def __enter__(self):
        for it in (signal.SIGTERM, signal.SIGHUP, signal.SIGINT):
            signal.signal(it, self._end)
        self.clock.__enter__()
        return self

    def __exit__(self, *_):
        self.clock.__exit__()
        self.pool.shutdown(wait=False, cancel_futures=True)
        self._kill()

    def _kill(self):
        for child in [*self.children]:
            with contextlib.suppress(OSError):
                os.killpg(child.pid, signal.SIGTERM)

    def _end(self, number, _):
        self.is_ending = True
        self._kill()
        sys.exit(128 + number)

    def text(self):
        """Returns what goes on just now: how many tests have ended, then what is at work and for how long."""
        with self.change:
            groups = [it for it in self.groups if it.count]
            ended = sum(it.passed + it.failed for it in groups)
            now, told = time.monotonic(), {}
            for what, begin in self.at_work.values():
                told.setdefault(what, []).append(now - begin)
            tests = [f"{it.name}, {it.passed + it.failed} of {it.count}, for {span(it.seconds())}" for it in groups if it.begin and not it.is_done()]
        told = [f"{what() if callable(what) else what}, for {span(max(times))}" for what, times in told.items() if what]
        return "; ".join([f"{ended} of {sum(it.count for it in groups)} tests have ended after {span(self.clock.seconds())}", *told, *tests])

    def add(self, what, call, *words):
        """Adds a task: `what` is told while it goes on, a text or a call; with none nothing is told."""
        with self.change:
            self.left += 1
        self.pool.submit(self._do, what, call, words)

    def _do(self, what, call, words):
        key = object()
        try:
            with self.change:
                self.at_work[key] = what, time.monotonic()
            call(*words)
        except BaseException as error:
            if self.is_ending:
                return
            # A fault of this program: nothing that it was to try counts as passed.
            self.end(self.group(what if isinstance(what, str) else call.__name__, 1), "", False, f"{type(error).__name__}: {error}")
        finally:
            with self.change:
                del self.at_work[key]
                self.left -= 1
                self.change.notify_all()

    def wait(self):
        """Waits until no task is left."""
        with self.change:
            while self.left:
                self.change.wait(1)

    def group(self, name, count):
        """Adds a group of so many tests."""
        with self.change:
            group = Group(name)
            group.count = count
            self.groups.append(group)
        return group

    def end(self, group, name, is_well, said=""):
        """Notes how a test ended. What one that failed has said is shown."""
        with self.change:
            group.start()
            group.passed, group.failed = group.passed + is_well, group.failed + (not is_well)
            is_done = group.is_done()
        if not is_well:
            lines = "".join(f"    {line}\n" for line in said.rstrip().splitlines()[-30:])
            self.clock.tell(f"FAILED: {group.name}{name and ': ' + name}\n{lines}".rstrip())
        if is_done:
            failed = f", {group.failed} FAILED" if group.failed else ""
            self.clock.tell(f"{'ok' if not failed else 'FAILED'}: {group.name}: {group.passed} passed{failed}, {span(group.seconds())}")

    def leave_out(self, text):
        """Notes what is not tried, and why."""
        with self.change:
            self.left_out.append(text)

    def run(self, words, **how):
        """Runs a command to its end, and returns its status and what it has printed; with `apart` standard error apart, behind it."""
        if self.is_ending:
            sys.exit(1)
        apart = how.pop("apart", False)
        how = {"stdin": subprocess.DEVNULL, "text": True, "errors": "replace", "start_new_session": True, **how}
        child = subprocess.Popen(words, stdout=subprocess.PIPE, stderr=subprocess.PIPE if apart else subprocess.STDOUT, **how)
        self.children.add(child)
        try:
            told, complained = child.communicate(timeout=STUCK)
        except subprocess.TimeoutExpired:
            with contextlib.suppress(OSError):
                os.killpg(child.pid, signal.SIGKILL)
            told, complained = child.communicate()
            complained = f"{complained or ''}\nit had not ended after {span(STUCK)}"
        finally:
            self.children.discard(child)
        return (child.returncode, told, complained) if apart else (child.returncode, told + (complained or ""))
