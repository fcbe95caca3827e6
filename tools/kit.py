"""What tries of edits need of the kit's command, whichever kit it is: one that keeps what it has proved on this machine, or one that proves all
from nothing. They begin with what checks have left in the folders out/ of the crates, where it is of the same text.
"""
import os
import shutil
import subprocess
import sys
import tempfile

sys.dont_write_bytecode = True


def keeps(rt):
    """Whether this kit's command keeps what it has proved."""
    return hasattr(rt, "Kept")


def crates_of(rt, root):
    """Returns the kit's crates of the repository in the folder `root` by their names."""
    rt.Crate.allowed = rt.handles_of(root)
    with tempfile.TemporaryDirectory() as aside:
        found = rt.crates_of(root) if keeps(rt) else rt.crates_of(root, aside)
    return {it.name: it for it in found}


def crates_there(rt, root):
    """Returns the kit's crates of the repository in the folder `root` by their names, with what was built of them left where it is."""
    rt.Crate.allowed = rt.handles_of(root)
    rt.rtlib.Crate = rt.Crate
    return {it.name: it for it in rt.rtlib.crates_below(root)}


# A check tells here when it began, and changes nothing else of what it finds.
USED = "rattle-last-used"


def listing(folder):
    """Returns each file below a folder, with its size and the time of its last change."""
    found = {}
    for at, _, names in os.walk(folder):
        for name in names:
            if name == USED:
                continue
            told = os.stat(f"{at}/{name}")
            found[f"{at}/{name}"] = told.st_size, told.st_mtime_ns
    return found


def linked(folder, to):
    """Makes a copy of a folder whose files are the same ones, by further names. A check replaces a file that it writes anew."""
    shutil.copytree(folder, to, copy_function=os.link)


def build_library(crate, folder):
    """Builds the library of a crate, whose libraries below are built, or takes the one in the crate's folder elsewhere, where that is of the same
    text; returns whether it is built."""
    there = f"{folder}/out/rlib"
    if not crate.is_built() and os.path.isfile(f"{there}/stamp"):
        shutil.rmtree(f"{crate.folder}/out/rlib", ignore_errors=True)
        os.makedirs(f"{crate.folder}/out", exist_ok=True)
        shutil.copytree(there, f"{crate.folder}/out/rlib")
    with tempfile.TemporaryFile("a+", errors="replace") as crate.out:
        return crate.build_rlib(["--jobs", "1"], anew=False) == 0


def seeded(rt, crate, seed):
    """Returns a folder in whose folder `seed` is what checks kept of the crate: those that left it in the folder `seed`, or else others on this machine, where the
    kit knows of them. Nothing is in it where there are none, or where no folder is named."""
    room = tempfile.mkdtemp(prefix="kagzuvis-edits-")
    if keeps(rt) and seed and not os.path.isdir(seed):
        seed = rt.work_for(crate)
    if not seed or not os.path.isdir(seed):
        os.mkdir(f"{room}/seed")
    elif os.stat(seed).st_dev == os.stat(room).st_dev:
        linked(seed, f"{room}/seed")
    else:
        subprocess.run(["cp", "-a", seed, f"{room}/seed"], check=True)
    return room


def is_kept(kept, crate):
    """Returns whether `rt ci` has proved this text of the crate on this machine, over the libraries that were put below it."""
    return os.path.isdir(kept.place(crate, False, kept.key(crate)))


def must_fail(rt, crate, path, folder):
    """Tries one edit over what is in the folder, and returns whether the prover refuses it, and what to say."""
    kind, text = rt.must_fail(crate, path, ["--jobs", "1"], folder)
    return kind in (rt.REFUSED, rt.AT_LIMIT) if keeps(rt) else kind, text
