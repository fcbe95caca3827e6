#!/usr/bin/env python3
"""Has fusermount3 mount a file system, and runs its program on what that gives.

usage: tools/by_fusermount.py DIR OPTIONS LOG PROGRAM WORD..

Who is not root may not mount; fusermount3, which belongs to root, does it, and sends the open /dev/fuse over the socket whose number is in
_FUSE_COMMFD. That becomes the standard input and output of PROGRAM, which this process turns into. What PROGRAM complains of goes to LOG,
where that is not empty. The status is 1 where nothing was mounted.
"""
import os
import signal
import socket
import subprocess
import sys


def mounted(directory, options):
    """Returns the descriptor of /dev/fuse for what fusermount3 has mounted; None where it has refused to, which it has told."""
    ours, theirs = socket.socketpair(socket.AF_UNIX, socket.SOCK_STREAM)
    with ours, theirs:
        words = ["fusermount3", "-o", options, "--", directory]
        told = {**os.environ, "_FUSE_COMMFD": str(theirs.fileno())}
        if subprocess.run(words, env=told, pass_fds=[theirs.fileno()]).returncode != 0:
            return None
        theirs.close()
        _, descriptors, _, _ = socket.recv_fds(ours, 1, 1)
    return descriptors[0] if descriptors else None


def main():
    if len(sys.argv) < 5:
        sys.exit(__doc__)
    directory, options, log, *words = sys.argv[1:]
    # Who ends this waits until it is known whether something is mounted, which has to be unmounted then.
    mask = signal.pthread_sigmask(signal.SIG_BLOCK, {signal.SIGHUP, signal.SIGINT, signal.SIGQUIT, signal.SIGTERM})
    descriptor = mounted(directory, options)
    if descriptor is None:
        print(f"mount: fusermount3 has not mounted {directory}", file=sys.stderr)
        return 1
    os.dup2(descriptor, 0)
    os.dup2(descriptor, 1)
    if log:
        os.dup2(os.open(log, os.O_WRONLY | os.O_APPEND), 2)
    signal.pthread_sigmask(signal.SIG_SETMASK, mask)
    os.execv(words[0], words)


if __name__ == "__main__":
    sys.exit(main())
