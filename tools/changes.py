"""What a transaction changes: its view beside the plain tree, by a walk of both.

Each object is read in the view first, and in the plain tree behind that. What somebody else commits of it then conflicts with what the
transaction has read, so it loses; where it still goes on behind the walk, what was found is its own doing alone. That the plain tree is
read dooms nobody.
"""
import os
import stat
import subprocess
import time

from transaction import NotCompared, why

KINDS = {
    stat.S_IFREG: "file",
    stat.S_IFDIR: "directory",
    stat.S_IFLNK: "link",
    stat.S_IFIFO: "FIFO",
    stat.S_IFSOCK: "socket",
}
# How many bytes are read at once, how many of a file are looked at for what no text has, and how long a text may be that is shown.
PIECE, LOOKED, LONGEST = 1 << 20, 1 << 16, 1 << 24
ESCAPES = {7: "a", 8: "b", 9: "t", 10: "n", 11: "v", 12: "f", 13: "r", 34: '"', 92: "\\"}


def shown(name):
    """Returns the bytes of a path or a target as they are printed: with quotes and escapes, as C has them, where a line would not
    be clear without."""
    name = name or b"."
    if all(byte >= 32 and byte not in (34, 92, 127) for byte in name):
        return name
    text = "".join(
        f"\\{ESCAPES[byte]}" if byte in ESCAPES else f"\\{byte:03o}" if byte < 32 or byte >= 127 else chr(byte) for byte in name
    )
    return f'"{text}"'.encode("ascii")


def kind_of(status):
    return KINDS.get(stat.S_IFMT(status.st_mode), "device").encode("ascii")


def differ(name, before, after):
    """Returns how one thing that has changed is told."""
    return b"%s %s -> %s" % (name, before, after)


def read(file, count):
    """Returns so many bytes of a file, fewer only at its end. No more are asked for, since a mount makes room for all that is."""
    found = b""
    while len(found) < count and (piece := file.read(count - len(found))):
        found += piece
    return found


class Change:
    """A path that has changed: how it was and is, as told by lstat, None where it is not there; and in which ways it has."""

    def __init__(self, path, before, after, ways=(), has_bytes=False):
        self.path, self.before, self.after, self.ways = path, before, after, ways
        # Whether the bytes of a file are others, or come or go with it.
        self.has_bytes = has_bytes

    def line(self):
        if self.before is None:
            return b"made %s: %s\n" % (shown(self.path), kind_of(self.after))
        if self.after is None:
            return b"removed %s: %s\n" % (shown(self.path), kind_of(self.before))
        return b"changed %s: %s\n" % (shown(self.path), b", ".join(self.ways))


class Walk:
    """A walk of a view and the plain tree. `signals` are looked at in each directory."""

    def __init__(self, transaction, signals):
        self.view, self.plain = os.fsencode(transaction.view), os.fsencode(transaction.tree)
        # What is to be walked still: a path, and whether it is a directory before and after. Through a link no path leads.
        self.signals, self.changes, self.open = signals, [], []

    def run(self):
        """Returns the changes by their paths, in their order."""
        self.compare_at(b"", True, True)
        while self.open:
            self.signals.check()
            path, was_directory, is_directory = self.open.pop()
            names = set(self.names(self.view, path)) if is_directory else set()
            names.update(self.names(self.plain, path) if was_directory else ())
            for name in names:
                self.compare_at(path + b"/" + name if path else name, was_directory, is_directory)
        return sorted(self.changes, key=lambda change: change.path)

    def compare_at(self, path, was_there, is_there):
        """Compares what stands at a path, where its directory was and is there, and has it walked where that is one."""
        after = self.status(self.view, path) if is_there else None
        before = self.status(self.plain, path) if was_there else None
        self.compare(path, before, after)
        was_directory, is_directory = (it is not None and stat.S_ISDIR(it.st_mode) for it in (before, after))
        if was_directory or is_directory:
            self.open.append((path, was_directory, is_directory))

    # ---- what stands there

    def at(self, top, path):
        return os.path.join(top, path) if path else top

    def names(self, top, path):
        """Returns the names in a directory; none where there is no such directory."""
        try:
            return [name for name in os.listdir(self.at(top, path)) if path or name != b".tx"]
        except (FileNotFoundError, NotADirectoryError):
            return []

    def status(self, top, path):
        try:
            return os.lstat(self.at(top, path))
        except (FileNotFoundError, NotADirectoryError):
            return None

    def target(self, top, path):
        """Returns where a link leads; nothing where it has gone meanwhile."""
        try:
            return os.readlink(self.at(top, path))
        except (FileNotFoundError, NotADirectoryError):
            return b""

    # ---- what is another

    def compare(self, path, before, after):
        """Notes how a path has changed, if it has."""
        if before is None and after is None:
            return
        if before is None or after is None:
            self.changes.append(Change(path, before, after, has_bytes=stat.S_ISREG((before or after).st_mode)))
            return
        was, now = kind_of(before), kind_of(after)
        if was != now:
            # It is another object, of which nothing more is told.
            self.changes.append(Change(path, before, after, [differ(b"kind", was, now)], b"file" in (was, now)))
            return
        has_bytes = was == b"file" and self.has_other_bytes(path, before, after)
        ways = [b"content"] if has_bytes else []
        if was == b"link":
            now, was = self.target(self.view, path), self.target(self.plain, path)
            if now != was:
                ways.append(differ(b"target", shown(was), shown(now)))
        ways += self.rights(before, after)
        if ways:
            self.changes.append(Change(path, before, after, ways, has_bytes))

    def rights(self, before, after):
        """Returns what is told of permissions and of the owner, where they are others."""
        was, now = stat.S_IMODE(before.st_mode), stat.S_IMODE(after.st_mode)
        if was != now:
            yield differ(b"permissions", b"%03o" % was, b"%03o" % now)
        was, now = (before.st_uid, before.st_gid), (after.st_uid, after.st_gid)
        if was != now:
            yield differ(b"owner", b"%d:%d" % was, b"%d:%d" % now)

    def has_other_bytes(self, path, before, after):
        """Whether a file's bytes are others. They are not read where all times are the same: a write sets them, and no program can
        set the time of the last change."""
        if before.st_size != after.st_size:
            return True
        if (before.st_ino, before.st_mtime_ns, before.st_ctime_ns) == (after.st_ino, after.st_mtime_ns, after.st_ctime_ns):
            return False
        left = after.st_size
        with open(self.at(self.view, path), "rb", buffering=0) as now, open(self.at(self.plain, path), "rb", buffering=0) as was:
            while left > 0:
                self.signals.check()
                piece = read(now, min(left, PIECE))
                if piece != read(was, len(piece)) or not piece:
                    return True
                left -= len(piece)
        return False


class Report:
    """What is shown of changes, in memory until it is written."""

    def __init__(self, walk, with_texts):
        self.walk, self.with_texts = walk, with_texts
        self.out = os.fdopen(os.memfd_create("report"), "w+b")

    def add(self, changes):
        for change in changes:
            self.walk.signals.check()
            self.out.write(change.line())
            if self.with_texts and change.has_bytes:
                self.add_text(change)

    def bytes_of(self, top, status, path):
        """Returns the bytes of a file; none where it was not there, None where it is too long to be shown."""
        if status is None or not stat.S_ISREG(status.st_mode):
            return b""
        if status.st_size > LONGEST:
            return None
        with open(self.walk.at(top, path), "rb", buffering=0) as file:
            return read(file, status.st_size)

    def label(self, status, path):
        """Returns the name of one side, with its time as diff has it."""
        if status is None or not stat.S_ISREG(status.st_mode):
            return b"/dev/null"
        local = time.localtime(status.st_mtime_ns // 10**9)
        moment = time.strftime("%Y-%m-%d %H:%M:%S", local) + f".{status.st_mtime_ns % 10**9:09d} " + time.strftime("%z", local)
        return shown(path) + b"\t" + moment.encode("ascii")

    def add_text(self, change):
        """Adds the change of a text as diff has it, or a line where it is none."""
        after = self.bytes_of(self.walk.view, change.after, change.path)
        before = self.bytes_of(self.walk.plain, change.before, change.path)
        labels = self.label(change.before, change.path), self.label(change.after, change.path)
        names = tuple(label.partition(b"\t")[0] for label in labels)
        if before is None or after is None:
            self.out.write(b"Files %s and %s differ: they are too long to be shown\n" % names)
        elif b"\0" in before[:LOOKED] or b"\0" in after[:LOOKED]:
            self.out.write(b"Binary files %s and %s differ\n" % names)
        else:
            self.out.write(difference(before, after, labels))

    def write(self):
        """Writes all of it to standard output."""
        self.out.seek(0)
        while piece := self.out.read(PIECE):
            while piece:
                piece = piece[os.write(1, piece) :]


def difference(before, after, labels):
    """Returns what the program diff says of two texts."""
    files = [os.memfd_create("text") for _ in labels]
    try:
        for file, text in zip(files, (before, after)):
            with open(os.dup(file), "wb") as out:
                out.write(text)
        words = ["diff", "-u", "--text", *(word for label in labels for word in (b"--label", label)), *(f"/dev/fd/{file}" for file in files)]
        done = subprocess.run(words, stdin=subprocess.DEVNULL, stdout=subprocess.PIPE, pass_fds=files, check=False)
    finally:
        for file in files:
            os.close(file)
    if done.returncode not in (0, 1):
        raise NotCompared(f"diff has ended with status {done.returncode}")
    return done.stdout


def report_of(transaction, signals, with_texts):
    """Returns what a transaction changes, as a `Report`; raises `Lost` where it is aborted by then, else `NotCompared` where the
    trees could not be read."""
    try:
        walk = Walk(transaction, signals)
        report = Report(walk, with_texts)
        report.add(walk.run())
    except OSError as error:
        transaction.check()
        place = f"{os.fsdecode(error.filename)}: " if error.filename else ""
        raise NotCompared(f"the trees cannot be compared: {place}{why(error)}") from None
    transaction.check()
    return report
