"""What the tools in Python have in common: where the repository is, and the kit's command."""
import importlib.machinery
import importlib.util
import os
import shutil
import subprocess
import sys

TOP = os.path.dirname(os.path.dirname(os.path.realpath(__file__)))

# The programs that only measure: they are proved when they are built to measure, and no part of the gate.
MEASURES = ("bench", "workload")
# The crates of tests alone: the gate tries their tests with checks, and tools/prove-tests proves them.
TESTS = ("layer_tests", "edge_tests", "worked_rows", "mount_tests")


def rt_of(tool):
    """Returns the path of the kit's command, and ends the tool of this name where there is none."""
    path = shutil.which("rt")
    if not path:
        print(f"{tool}: rt, the kit's command, is not on the PATH", file=sys.stderr)
        sys.exit(127)
    return os.path.realpath(path)


def load_rt(path):
    """Returns the kit's command, a Python file without a suffix, as a module."""
    loader = importlib.machinery.SourceFileLoader("rt", path)
    module = importlib.util.module_from_spec(importlib.util.spec_from_loader("rt", loader))
    sys.modules["rt"] = module
    loader.exec_module(module)
    return module


def of_shell(*words):
    """Returns what a function of shared.sh prints."""
    how = {"env": {**os.environ, "top": TOP}, "stdout": subprocess.PIPE, "text": True}
    return subprocess.run(["bash", "-c", '. "$top/tools/shared.sh"; "$@"', "shared", *words], **how).stdout.strip()


def unproved_name(crate, tests):
    """Returns the name by which the unproved program of a crate, or of its tests, is kept for the sources as they are."""
    return of_shell("unproved_name", crate, *["--test"] * tests)


def is_built(crate):
    """Whether the proved program of a crate is built and no source is newer."""
    how = {"env": {**os.environ, "top": TOP}, "stdin": subprocess.DEVNULL}
    return subprocess.run(["bash", "-c", '. "$top/tools/shared.sh"; is_built "$1"', "shared", crate], **how).returncode == 0
