#!/usr/bin/env python3
"""Runs the gate's command, `rt ci`, over a folder of crates, and tells how it goes on.

usage: tools/gate.py NAME FOLDER [--anew]

FOLDER has crates.txt, HANDLES and crates/, as the top of the repository has. NAME stands before each line on standard error: which
crates are done, how many of how many, and each half minute which are at work and for how long. Where the gate fails, all that it has
said comes on standard error. The status is that of `rt ci`.
"""
import contextlib
import os
import pathlib
import re
import signal
import subprocess
import sys

sys.dont_write_bytecode = True
from clock import Clock, span
from shared import rt_of

# What the gate says of a crate that is done.
DONE = re.compile(r"^rt: (\w+) (proved|is kept)\b")
FAILED = re.compile(r"^rt: .*\b(NOT PROVED|NOT REFUSED|NOT TRIED|BAD EDIT|FAILED)\b")
EDITS = re.compile(r"^rt: (\w+): trying its must-fail edits \((\d+)\)")
LAST = re.compile(r"^(\d+) passed, (\d+) failed")


def parents():
    """Returns each process's parent, and the crate that it checks where it is one of the prover's."""
    found = {}
    for name in os.listdir("/proc"):
        if name.isdigit():
            with contextlib.suppress(OSError, ValueError, IndexError):
                state = pathlib.Path(f"/proc/{name}/stat").read_text().rpartition(")")[2].split()
                words = pathlib.Path(f"/proc/{name}/cmdline").read_bytes().decode(errors="replace").split("\0")
                crate = words[words.index("--crate-name") + 1] if "--crate-name" in words else None
                found[int(name)] = int(state[1]), crate
    return found


def crates_at_work(process):
    """Returns the names of the crates that processes below this one check just now, in order."""
    found, names = parents(), set()
    for number, (parent, crate) in found.items():
        while crate and parent in found and parent != process:
            parent = found[parent][0]
        if crate and parent == process:
            names.add(crate)
    return sorted(names)


class Gate:
    """One run of the gate's command. `count` is how many crates it proves, `children` a set that has its process while it runs."""

    def __init__(self, folder, words=(), children=None):
        self.folder, self.words, self.children = folder, words, set() if children is None else children
        lines = pathlib.Path(folder, "crates.txt").read_text().splitlines()
        self.count = sum(bool(line) and not line.startswith("#") for line in lines)
        self.done, self.edits, self.said, self.child = [], 0, [], None

    def text(self):
        """Returns how far it is."""
        if not self.child or self.child.poll() is not None:
            return ""
        names = crates_at_work(self.child.pid)
        at_work = f"; at work on {', '.join(names)}" if names else ""
        edits = f", {self.edits} edits to be refused" if self.edits else ""
        return f"{len(self.done)} of {self.count} crates are done{edits}{at_work}"

    def run(self, hear):
        """Runs it, hands each line to `hear`, and returns its status."""
        how = {"stdin": subprocess.DEVNULL, "stdout": subprocess.PIPE, "stderr": subprocess.STDOUT, "text": True, "errors": "replace"}
        # What the command says under CI is meant for the top of a repository, and this is a copy.
        how["env"] = {name: value for name, value in os.environ.items() if name != "CI"}
        self.child = subprocess.Popen(["rt", "ci", *self.words], cwd=self.folder, start_new_session=True, **how)
        self.children.add(self.child)
        try:
            for line in self.child.stdout:
                line = line.rstrip("\n").replace(f"{self.folder}/", "")
                self.said.append(line)
                done, edits = DONE.match(line), EDITS.match(line)
                if done:
                    self.done.append(done[1])
                elif edits:
                    self.edits += int(edits[2])
                hear(line)
            return self.child.wait()
        finally:
            self.children.discard(self.child)
            if self.child.poll() is None:
                os.killpg(self.child.pid, signal.SIGTERM)

    def counts(self):
        """Returns how many proofs and edits passed, and how many things failed, as the last line says; where there is none, that one failed. An
        edit that says nothing of a contract has failed too, though it fails no run of that command."""
        last = LAST.match(self.said[-1]) if self.said else None
        bad = sum(bool(re.match("^rt: .*: BAD EDIT:", line)) for line in self.said)
        return (int(last[1]), int(last[2]) + bad) if last else (0, 1)

    def tests(self):
        """Returns how many tests of crates passed."""
        return sum(int(found[1]) for line in self.said if (found := re.match(r"^test result: \w+\. (\d+) passed;", line)))


def heard(gate, clock):
    """Returns what tells of each line of a gate how many crates are done, and what failed."""

    def hear(line):
        done = DONE.match(line)
        if done:
            clock.say(f"{clock.name}: {len(gate.done)} of {gate.count}: {done[1]} {done[2]}, after {span(clock.seconds())}")
        elif FAILED.match(line):
            clock.say(line)

    return hear


def main():
    words = sys.argv[1:]
    if len(words) not in (2, 3) or words[2:] not in ([], ["--anew"]):
        sys.exit(__doc__)
    rt_of(words[0])
    for it in (signal.SIGTERM, signal.SIGHUP, signal.SIGINT):
        signal.signal(it, lambda number, _: sys.exit(128 + number))
    gate = Gate(os.path.realpath(words[1]), words[2:])
    with Clock(words[0], lambda: (text := gate.text()) and f"{text}, for {span(clock.seconds())}") as clock:
        status = gate.run(heard(gate, clock))
    if status:
        print("\n".join(gate.said), file=sys.stderr)
    sys.exit(status)


if __name__ == "__main__":
    main()
