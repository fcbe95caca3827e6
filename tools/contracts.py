"""A digest of what the tries of a crate's edits rest on, and the proof of a crate of tests: the crate's text, and the contracts of the crates below it. The
record of a crate's edits has a line for each besides, so that one which is new is tried alone.

Above a crate its proofs read the statements alone, so of the crates below count the definitions (specs/) and the code without the
bodies of its functions and without comments.
"""
import hashlib
import pathlib
import re
import sys

sys.dont_write_bytecode = True
from shared import TOP

CRATES = pathlib.Path(TOP, "crates")
PARTS = ("src", "specs", "proofs")

TOKEN = re.compile(
    r"""//[^\n]*                                # a comment
      | "(?:\\.|[^"\\])*"                       # a text
      | (?<![\w'])'(?:\\.[^'\n]*|[^'\\\n])'     # a character, and no lifetime
      | [A-Za-z_]\w*
      | [{}()\[\];/']
      | [^\sA-Za-z_{}()\[\];/"']+""",
    re.X | re.S,
)
CLAUSES = ("requires", "ensures")
CLOSERS = {"{": "}", "(": ")", "[": "]"}
# What can stand behind the body of a function.
BEHIND = re.compile(r"\}|#|(pub|fn|impl|ghost|use|struct|enum|trait|const|static|mod|type|unsafe|extern|macro_rules)\Z")


class Unread(Exception):
    """A text is of another form than this file knows."""


def closing(tokens, at):
    """Returns the index of the bracket that closes the one at this index."""
    depth = 0
    for i in range(at, len(tokens)):
        if tokens[i] in CLOSERS:
            depth += 1
        elif tokens[i] in CLOSERS.values():
            depth -= 1
            if depth == 0:
                return i
    raise Unread


def is_clause(tokens, at):
    """Whether the brace at this index opens a clause of a contract, which may have a name, or the type of an argument of the proof."""
    if tokens[at - 1] == ":":
        return tokens[at - 3] == "ghost"
    return tokens[at - 1] in CLAUSES or tokens[at - 1].isidentifier() and tokens[at - 2] in CLAUSES


def body_of(tokens, at):
    """Returns the indices of the braces around the body of the function whose name stands at this index; None where it has none."""
    while at < len(tokens):
        if tokens[at] == ";":
            return None
        if tokens[at] in CLOSERS:
            end = closing(tokens, at)
            if tokens[at] == "{" and not is_clause(tokens, at):
                if end + 1 < len(tokens) and not BEHIND.match(tokens[end + 1]):
                    raise Unread
                return at, end
            at = end
        elif tokens[at] in CLOSERS.values():
            raise Unread
        at += 1
    raise Unread


def without_bodies(text):
    """Returns the tokens of Rattle code without comments and without the bodies of functions. Code of a form that is not known comes whole."""
    tokens = [it for it in TOKEN.findall(text) if not it.startswith("//")]
    kept, at = [], 0
    try:
        while at < len(tokens):
            kept.append(tokens[at])
            if tokens[at] == "fn" and at + 1 < len(tokens) and tokens[at + 1].isidentifier():
                body = body_of(tokens, at + 1)
                if body:
                    kept += [*tokens[at + 1 : body[0]], "{}"]
                    at = body[1]
            at += 1
    except Unread:
        return tokens
    return kept


def without_comments(text):
    """Returns the lines of definitions that are no comments."""
    return [line.rstrip() for line in text.splitlines() if line.strip() and not re.match(r"\s*--(\s|$)", line)]


def lines_of_crates():
    """Returns the names of the crates that each crate uses, and its line of crates.txt."""
    found = {}
    for line in pathlib.Path(TOP, "crates.txt").read_text().splitlines():
        if line and not line.startswith("#"):
            head, _, uses = line.partition(":")
            found[head.split()[0]] = uses.split(), line
    return {name: ([it for it in uses if it in found], line) for name, (uses, line) in found.items()}


def below(name, lines):
    """Returns the names of the crates below one, in order."""
    found, left = set(), [name]
    while left:
        for it in lines[left.pop()][0]:
            if it not in found:
                found.add(it)
                left.append(it)
    return sorted(found)


def files_of(name, parts):
    """Returns the files of these folders of a crate, in order."""
    return sorted(it for part in parts for it in CRATES.joinpath(name, part).rglob("*") if it.is_file())


def edits_of(name):
    """Returns the edits of a crate that stand outside the gate, in order."""
    return sorted(CRATES.joinpath(name, "more-edits").glob("*.edit"))


def gate_edits_of(name):
    """Returns the edits of a crate that the gate tries, in order."""
    return sorted(CRATES.joinpath(name, "must-fail").glob("*.edit"))


def contract_of(name, known):
    """Returns the digest of the contracts of a crate. `known` has those that were asked for before."""
    if name not in known:
        sum = hashlib.sha256()
        for file in files_of(name, ("src", "specs")):
            text = file.read_text()
            lines = without_bodies(text) if file.suffix == ".rt" else without_comments(text)
            sum.update(repr((str(file.relative_to(CRATES)), lines)).encode())
        known[name] = sum.hexdigest()
    return known[name]


def digest_of(name, known):
    """Returns the digest of all that the proof of a crate rests on, and with it the tries of its edits."""
    lines = lines_of_crates()
    sum = hashlib.sha256(lines[name][1].encode())
    for file in files_of(name, PARTS):
        sum.update(repr((str(file.relative_to(CRATES)), file.read_bytes())).encode())
    for it in below(name, lines):
        sum.update(f"{it} {contract_of(it, known)}\n".encode())
    return sum.hexdigest()


def record_of(name):
    """Returns the file that tells that a crate's edits were refused."""
    return CRATES.joinpath(name, "more-edits", "refused")


def proof_of(name):
    """Returns the file that tells that a crate of tests was proved."""
    return CRATES.joinpath(name, "proved")


def why_anew(name, record, what, known):
    """Returns why a record does not hold, or '' where it is of all as it stands now. `what` is what it tells."""
    if not record.is_file():
        return f"no record says that {what}"
    found = re.search(r"^sha256 (\w+)$", record.read_text(), re.M)
    is_same = found and found[1] == digest_of(name, known)
    return "" if is_same else f"the crate's text, or a contract below it, is another than when {what}"


def line_of(edit):
    """Returns the line of a record that tells of an edit as it stands."""
    return f"{hashlib.sha256(edit.read_bytes()).hexdigest()} {edit.name}"


def left_of(name, known):
    """Returns the edits of a crate that stand outside the gate and were not refused as all stands now: all, or those that are new or of another text."""
    edits, record = edits_of(name), record_of(name)
    if why_anew(name, record, "", known):
        return edits
    lines = {*record.read_text().splitlines()}
    return [it for it in edits if line_of(it) not in lines]


def why_to_try(name, known):
    """Returns why edits of a crate have to be tried, or '' where all were refused as all stands now."""
    left = left_of(name, known)
    why = why_anew(name, record_of(name), "they were refused", known)
    return why or (f"{len(left)} of them are new, or of another text than when they were refused" if left else "")


def why_to_prove(name, known):
    """Returns why a crate of tests has to be proved, or '' where it was as all stands now."""
    return why_anew(name, proof_of(name), "it was proved", known)
