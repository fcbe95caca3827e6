"""Shows on standard error that something goes on, and for how long."""
import contextlib
import os
import sys
import threading
import time


class Clock:
    """Tells what `text` returns, while it returns something: each second in one line of a terminal, else after each ten seconds of the
    first minute and each half minute behind it. Lines of `say` and `tell` never come between the characters of that line."""

    def __init__(self, name, text):
        self.name, self.text = name, text
        self.is_terminal = os.isatty(2)
        self.begin, self.lock, self.ended, self.width = time.monotonic(), threading.Lock(), threading.Event(), 0
        self.thread = threading.Thread(target=self._run, daemon=True)

    def __enter__(self):
        self.thread.start()
        return self

    def __exit__(self, *_):
        self.ended.set()
        self.thread.join()
        with self.lock:
            self._clear()

    def restart(self):
        """Counts from now on."""
        self.begin = time.monotonic()

    def seconds(self):
        return round(time.monotonic() - self.begin)

    def _clear(self):
        if self.width:
            self._write(f"\r{' ' * self.width}\r")
            self.width = 0

    @staticmethod
    def _write(text):
        with contextlib.suppress(OSError):
            os.write(2, text.encode(errors="replace"))

    def _run(self):
        while not self.ended.wait(1):
            seconds = self.seconds()
            if not self.is_terminal and seconds % (10 if seconds <= 60 else 30):
                continue
            text = self.text()
            if not text:
                continue
            with self.lock:
                if self.is_terminal:
                    text = f"{self.name}: {text}"[: os.get_terminal_size(2).columns - 1]
                    self._write(f"\r{text.ljust(self.width)}")
                    self.width = max(self.width, len(text))
                else:
                    self._write(f"{self.name}: {text}\n")

    def tell(self, text):
        """Prints a line on standard output."""
        with self.lock:
            self._clear()
            print(text, flush=True)

    def say(self, text):
        """Prints a line on standard error."""
        with self.lock:
            self._clear()
            print(text, file=sys.stderr, flush=True)


def span(seconds):
    """Returns so many seconds as a reader says them."""
    seconds = round(seconds)
    return f"{seconds} s" if seconds < 120 else f"{seconds // 60} min {seconds % 60} s"
