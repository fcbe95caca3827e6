"""Installs the files of a package and their list, in one transaction; each answer is printed."""
import sys
from kagzuvis import CREAT, RDONLY, WRONLY, Kernel

FILES = {"edit": b"program", "help": b"keys", "files": b"edit\nhelp\n"}


def install(process):
    process.mkdir("/editor")
    for name, content in FILES.items():
        file = process.open("/editor/" + name, WRONLY | CREAT)
        process.write(file, content)
        process.close(file)


with Kernel(sys.argv[1], priorities=(0, 0), trace=sys.stdout) as kernel:
    installer, other = kernel.processes
    installer.run(install, retries=9)
    other.open("/editor/files", RDONLY)
