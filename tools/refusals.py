"""Tries edits that the prover has to refuse, as many of a crate's at once as stand in different functions.

An edit changes the body of a function, whose callers read its contract alone. So edits of different functions do not touch each
other: one check of all of those functions tells of each by itself whether it is proved. What such a check does not refuse for its
meaning is tried alone, as the gate does: an edit that stands outside of a function, that is still proved, that the prover cannot
read, or that is refused only for a name that it takes away.
"""
import contextlib
import os
import re
import shutil
import sys
from typing import NamedTuple

sys.dont_write_bytecode = True
import kit
from functions import functions_of

# How many edits one check tries at most. A check is one thread's, and beside it stand those of further edits.
MOST = 12
# (a function has no proof where its goals are not found, or where one that it calls is not proved)
TOLD = re.compile(r"^fn (\S+): (proved|not proved|no proof)\b")
ERROR = re.compile(r"^(?:note: )?(?:\./)?((?:src|proofs)/\S+?):(\d+):\d+: ")
UNKNOWN = re.compile(r"^rattle: error: .* has no function `([^`]+)`")
# A proof file that names what an edit took away says nothing of a contract.
NAMES = re.compile(r"has no field|is not in scope|has no `|was not admitted")


class Place(NamedTuple):
    """A function that an edit changes: the names by which the prover may tell of it, where the type of a method stands in its own file; and its lines."""

    symbols: tuple
    file: str
    first: int
    last: int

    def names(self):
        """Returns the ends of these names, by one of which the prover finds it: functions of two types may have one name."""
        return ["::".join(it.split("::")[-2:]) for it in self.symbols]

    def told(self, said):
        """Returns what a check said of it: its name, and 'proved', 'not proved' or 'no proof'; two empty texts where that is not known. A method that stands in
        another file than its type is known by the end of its name."""
        ends = tuple("::" + "::".join(it.split("::")[-2:]) for it in self.symbols)
        found = [it for it in said if it[0] in self.symbols] or [it for it in said if it[0].endswith(ends)]
        return found[0] if len(found) == 1 else ("", "")

    def is_at(self, symbol, line):
        """Whether a line of an error tells of it: at its own lines, or in the folder of its proof."""
        file, number = ERROR.match(line).groups()
        folder = "/".join(["proofs", *symbol.split("::")[1:], ""])
        return file.startswith(folder) or file == self.file and self.first <= int(number) <= self.last


class Edit(NamedTuple):
    """An edit: its file, the texts of the files that it changes, and where it changes functions; no places where it changes something else, too."""

    path: str
    texts: dict
    places: frozenset

    def name(self):
        return os.path.basename(self.path)

    def refusals(self, lines):
        """Returns the line by which a check that said this refuses it for its meaning, or none; and one that refuses it only for a name in a proof
        file that it takes away, or none."""
        said, by_name = [found.groups() for line in lines if (found := TOLD.match(line))], None
        for place in self.places:
            symbol, word = place.told(said)
            if word in ("not proved", "no proof"):
                errors = [line for line in lines if ERROR.match(line) and place.is_at(symbol, line)]
                if found := next((line for line in errors if not NAMES.search(line)), None):
                    return found, None
                if word == "not proved" and not errors:
                    return f"fn {symbol}: not proved", None
                by_name = by_name or next(iter(errors), None)
        return None, by_name


def places_in(crate, file, new):
    """Returns the functions that an edit of a file changes, or none where it changes something else, too."""
    with open(f"{crate.folder}/{file}", encoding="utf-8") as it:
        old = it.read()
    rows = [old.split("\n"), new.split("\n")]
    if not file.endswith(".rt") or len(rows[0]) != len(rows[1]):
        return set()
    functions, found = functions_of(old), set()
    for number, (was, now) in enumerate(zip(*rows), 1):
        if was != now:
            here = [it for it in functions if it.first <= number <= it.last]
            if not here:
                return set()
            found.add(Place(here[0].symbols(crate.name, file), file, here[0].first, here[0].last))
    return found


def read(rt, crate, path):
    """Reads an edit. One that cannot be applied has no places: tried alone, it says why."""
    texts, _ = rt.read_edit(path, crate.folder)
    parts = [places_in(crate, file, text) for file, text in (texts or {}).items()]
    return Edit(path, texts or {}, frozenset().union(*parts) if all(parts) else frozenset())


def control_of(crate, edits):
    """Returns the shortest function of a file that these edits change which neither they change nor calls one that they do; None where there is none."""
    changed, found = {place for it in edits for place in it.places}, []
    names = {it.symbols[0].split("::")[-1] for it in changed}
    for file in sorted({it.file for it in changed}):
        with open(f"{crate.folder}/{file}", encoding="utf-8") as it:
            text = it.read()
        rows = text.split("\n")
        for it in functions_of(text):
            place = Place(it.symbols(crate.name, file), file, it.first, it.last)
            words = set(re.findall(r"\w+", "\n".join(rows[it.first - 1 : it.last])))
            if place not in changed and not names & words:
                found.append(place)
    return min(found, key=lambda it: it.last - it.first, default=None)


def rounds_of(edits):
    """Puts edits into rounds in which no two change the same function, and returns these."""
    rounds = []
    for edit in edits:
        fits = (it for it in rounds if len(it) < MOST and not any(edit.places & other.places for other in it))
        into = next(fits, None)
        if into is None:
            rounds.append(into := [])
        into.append(edit)
    return rounds


def joined(crate, edits):
    """Returns the texts of the files that these edits change, with all their changes. Each changes lines of its own, one for one."""
    texts = {}
    for edit in edits:
        for file, text in edit.texts.items():
            with open(f"{crate.folder}/{file}", encoding="utf-8") as it:
                old = it.read().split("\n")
            rows = texts.setdefault(file, list(old))
            for number, (was, now) in enumerate(zip(old, text.split("\n"))):
                if was != now:
                    rows[number] = now
    return {file: "\n".join(rows) for file, rows in texts.items()}


class Refusals:
    """The tries of one crate's edits, over what a check of the crate as it stands proved. `crate` is one of the kit's, whose libraries
    below are built; in the folder `seed`, if there is one, is what checks of the crate kept elsewhere."""

    def __init__(self, rt, crate, paths, seed=None):
        self.rt, self.crate, self.seed, self.room, self.files = rt, crate, seed, None, {}
        # What refused an edit, by its path; and what refuses it only for a name that it takes away from a proof file, which says little of a contract.
        self.told, self.by_name = {}, {}
        # A function that no edit changes, and what the checks of edits said of it.
        self.control, self.words = None, set()
        # Whether a check of the whole crate has refused an edit, or not.
        self.is_whole = False
        edits = [read(rt, crate, it) for it in paths]
        self.alone = [it for it in edits if not it.places]
        self.rounds = rounds_of([it for it in edits if it.places])

    def begin(self):
        """Begins with what checks on this machine kept of the crate."""
        self.room = kit.seeded(self.rt, self.crate, self.seed)
        self.files = kit.listing(f"{self.room}/seed")

    def with_control(self):
        """Has each check prove one function more, as it stands: for the edits of a crate that was just proved, which need no check behind them."""
        self.control = control_of(self.crate, [it for edits in self.rounds for it in edits])

    def is_sound(self):
        """Whether each check of edits has proved the function that no edit changes; else the changed functions are checked as they stand."""
        return self.words == {"proved"} or self.end()

    @contextlib.contextmanager
    def over(self, name):
        """Gives a copy of what was proved, for one check."""
        folder = f"{self.room}/{name}"
        kit.linked(f"{self.room}/seed", folder)
        try:
            yield folder
        finally:
            shutil.rmtree(folder, ignore_errors=True)

    def check(self, name, texts, places):
        """Checks these functions with these texts, or all where none is given, and returns the lines of what was said. The prover says at once where
        it knows one by another of its names, or by none, as it does of a test."""
        names = [it.names() for it in places]
        while names or not places:
            only = [word for it in sorted({it[0] for it in names}) for word in ("--only", it)]
            with self.over(name) as folder:
                lines = self.rt.checked(self.crate, texts, ["--jobs", "1", *only], folder).stdout.split("\n")
            unknown = {found[1] for line in lines if (found := UNKNOWN.search(line))}
            if not unknown:
                return lines
            names = [left for it in names if (left := it[it[0] in unknown :])]
        return []

    def unrefused(self, number):
        """Tries the edits of a round in one check, and returns those that it does not refuse for their meaning."""
        return self.left(f"round-{number}", self.rounds[number])

    def left(self, name, edits):
        """Returns those of these edits that one check does not refuse. Where it tells of no function, one of them cannot be read, so each half is tried."""
        places = {place for it in edits for place in it.places}
        lines = self.check(name, joined(self.crate, edits), places | {self.control} - {None})
        if len(edits) > 1 and not any(map(TOLD.match, lines)):
            half = len(edits) // 2
            return self.left(name, edits[:half]) + self.left(name, edits[half:])
        if self.control:
            self.words.add(self.control.told([found.groups() for line in lines if (found := TOLD.match(line))])[1])
        for it in edits:
            told, by_name = it.refusals(lines)
            self.told |= {it.path: told} if told else {}
            self.by_name |= {it.path: by_name} if by_name else {}
        return [it for it in edits if it.path not in self.told]

    def fill(self):
        """Checks the whole crate as it stands, so that each edit that is tried alone begins with that, and returns whether it is proved."""
        is_proved = not self.rt.checked(self.crate, {}, ["--jobs", "1"], f"{self.room}/seed").returncode
        self.files = kit.listing(f"{self.room}/seed")
        return is_proved

    def try_alone(self, edit):
        """Tries one edit as the gate does, and returns whether it is refused, and what to say."""
        self.is_whole = True
        with self.over(f"alone-{edit.name()}") as folder:
            return kit.must_fail(self.rt, self.crate, edit.path, folder)

    def clear(self):
        """Removes what the tries kept."""
        shutil.rmtree(self.room, ignore_errors=True)

    def end(self):
        """Checks the functions that were changed as they stand, and all of the crate where one edit was tried by a check of all; returns whether they are
        proved, over what nothing has touched meanwhile."""
        places = {place for edits in self.rounds for it in edits for place in it.places}
        lines = self.check("as-they-stand", {}, set() if self.is_whole else places)
        said = [found.groups() for line in lines if (found := TOLD.match(line))]
        is_same = kit.listing(f"{self.room}/seed") == self.files
        return is_same and (any(it.startswith("logic=proved") for it in lines) if self.is_whole else all(it.told(said)[1] == "proved" for it in places))
