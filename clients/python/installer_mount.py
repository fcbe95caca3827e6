"""Installs the files of a package and their list on a mounted tree, in one transaction."""
import sys
import kagzuvis_mount

FILES = {"edit": "program", "help": "keys", "files": "edit\nhelp\n"}


def install(tree):
    (tree / "editor").mkdir()
    for name, content in FILES.items():
        (tree / "editor" / name).write_text(content)


kagzuvis_mount.run(sys.argv[1], install, retries=9)
