#!/usr/bin/env python3
"""Runs tools whose standard error is a terminal, and looks at what comes there: how far a long replay is, and what a size is.

  tests/progress.py PROGRAM

The input comes by a pipe, in two halves with a pause between them, so that the run is a long one. It prints a line for each
failure, and then a count; its status is 0 where none failed.
"""

import contextlib
import os
import pty
import subprocess
import sys
import threading
import time

TOP = os.path.dirname(os.path.dirname(os.path.abspath(__file__)))
RECORDS = open(f"{TOP}/examples/accounts.csv", "rb").read()
COMMANDS = open(f"{TOP}/examples/first_event.csv", "rb").read()
# The line as it is read, as all is read, and as it is taken away.
LINE = "\rread 0 MB" + 14 * " "
ALL = "\rread 0 MB, replaying   "
AWAY = "\r" + 40 * " " + "\r"


def read_from(end):
    """Returns what comes to a terminal until nobody has it any longer."""
    come = b""
    while True:
        try:
            piece = os.read(end, 65536)
        except OSError:
            return come.decode().replace("\r\n", "\n")
        if not piece:
            return come.decode().replace("\r\n", "\n")
        come += piece


def run(program, words, records, pause, on_terminal=False):
    """Runs a tool over these bytes, and returns its status, what it printed, and what came to the terminal."""
    ours, theirs = pty.openpty()
    output = theirs if on_terminal else subprocess.PIPE
    ran = subprocess.Popen([program, *words, "-"], stdin=subprocess.PIPE, stdout=output, stderr=theirs)
    os.close(theirs)
    half = records.index(b"\n", len(records) // 2) + 1
    come = []
    reading = threading.Thread(target=lambda: come.append(read_from(ours)))
    reading.start()
    # (a refused command line is not followed by a read)
    with contextlib.suppress(BrokenPipeError):
        ran.stdin.write(records[:half])
        ran.stdin.flush()
        time.sleep(pause)
        ran.stdin.write(records[half:])
        ran.stdin.close()
    printed = b"" if on_terminal else ran.stdout.read()
    status = ran.wait()
    reading.join()
    os.close(ours)
    return status, printed, come[0]


def cases(program):
    """Gives each case: its name, what came, and what was to come."""
    report = subprocess.run([program, "replay", "-"], input=RECORDS, stdout=subprocess.PIPE, check=True).stdout
    for by in ("plain", "ring"):
        words = ["replay", "--by", by]
        yield f"{by}, long", run(program, words, RECORDS, 1.2), (0, report, LINE + ALL + AWAY)
        yield f"{by}, short", run(program, words, RECORDS, 0), (0, report, "")
    # (its report follows the order in which the producers came)
    status, _, come = run(program, ["replay", "--by", "lock"], RECORDS, 1.2)
    yield "lock, long", (status, come), (0, LINE + ALL + AWAY)
    told = run(program, ["replay"], RECORDS, 1.2, on_terminal=True)
    yield "report to the terminal", told, (0, b"", LINE + ALL + AWAY + report.decode())
    fault = subprocess.run([program, "replay", "-"], input=RECORDS + b"x\n", stderr=subprocess.PIPE, check=False).stderr.decode()
    yield "a fault", run(program, ["replay"], RECORDS + b"x\n", 1.2), (2, b"", LINE + ALL + AWAY + fault)
    # (what a size is, is said to a terminal alone)
    refused = subprocess.run([program, "replay", "--by", "post"], stdin=subprocess.DEVNULL, stderr=subprocess.PIPE, check=False).stderr.decode()
    yield "a bad word", run(program, ["replay", "--by", "post"], b"\n\n", 0), (1, b"", refused)
    yield "a bad size", run(program, ["replay", "--size", "3"], b"\n\n", 0), (1, b"", "bad-size\n--size is a power of two from 1 to 65536\n")
    status, _, come = run(program, ["drive"], COMMANDS, 1.2)
    yield "drive", (status, come), (0, "")
    words = [program, "replay", "-"]
    with subprocess.Popen(words, stdin=subprocess.PIPE, stdout=subprocess.PIPE, stderr=subprocess.PIPE) as ran:
        ran.stdin.write(RECORDS[:100])
        ran.stdin.flush()
        time.sleep(1.2)
        yield "no terminal", ran.communicate(RECORDS[100:]), (report, b"")


def main():
    program = os.path.abspath(sys.argv[1])
    found = list(cases(program))
    failed = [(name, came, wanted) for name, came, wanted in found if came != wanted]
    for name, came, wanted in failed:
        print(f"FAILED: {name}: {came}, not {wanted}")
    print(f"progress: {len(found)} cases, {len(failed)} failed")
    return 1 if failed else 0


if __name__ == "__main__":
    sys.exit(main())
