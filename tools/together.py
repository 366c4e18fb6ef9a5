#!/usr/bin/env python3
"""Runs commands that end with this process, however it ends: killed, interrupted or by itself.

  tools/together.py COMMAND..  runs one so, and ends with its status

All are in one process group, with a shell that waits at a pipe which nothing but this process holds open. Once it is gone the
shell ends the group, first by a signal that the commands may heed, and removes the room where this process kept its files.
"""

import functools
import os
import signal
import subprocess
import sys
import tempfile

SHELL = 'trap "" HUP INT TERM; read -r _; kill -TERM 0; sleep 1; rm -rf "$0"; kill -KILL 0'


@functools.lru_cache(maxsize=None)
def begun():
    """Starts the shell, at the first call, which is the main thread's, and returns the room and the group."""
    # Python would wait at an interrupt for its threads, and so for their commands.
    if signal.getsignal(signal.SIGINT) is signal.default_int_handler:
        signal.signal(signal.SIGINT, signal.SIG_DFL)
    room = tempfile.mkdtemp(prefix="together-")
    ends, _held = os.pipe()
    how = {"stdin": ends, "stdout": subprocess.DEVNULL, "stderr": subprocess.DEVNULL}
    shell = subprocess.Popen(["sh", "-c", SHELL, room], process_group=0, **how)
    os.close(ends)
    return room, shell.pid


def folder(prefix):
    """Makes a folder in the room, to be used with `with`."""
    return tempfile.TemporaryDirectory(prefix=prefix, dir=begun()[0])


def run(words, **how):
    """As `subprocess.run`, with nothing to read."""
    return subprocess.run(words, stdin=subprocess.DEVNULL, process_group=begun()[1], **how)


def said_by(words, at, running=None):
    """Returns the status of a command in a folder, and what it said. While it runs, its process is among those running."""
    running = set() if running is None else running
    how = {"stdin": subprocess.DEVNULL, "stdout": subprocess.PIPE, "stderr": subprocess.STDOUT, "process_group": begun()[1]}
    with subprocess.Popen(words, cwd=at, **how) as ran:
        running.add(ran.pid)
        said = ran.communicate()[0]
        running.discard(ran.pid)
    return ran.returncode, said.decode(errors="replace")


def main():
    if not sys.argv[1:]:
        sys.exit(__doc__)
    status = run(sys.argv[1:]).returncode
    sys.exit(status if status >= 0 else 128 - status)


if __name__ == "__main__":
    main()
