#!/usr/bin/env python3
"""Looks for memory that calls of the library lose, by valgrind.

    tests/hostile/leaks.py CALLS

CALLS is `disruptor_hostile` as LLVM built it. Each of its cases ends well, with all memory given back, or still to be reached.
Where there is no valgrind the script says so, and looks for nothing. It prints a line for each failure, and then a count; its
status is 0 where none failed.
"""

import os
import shutil
import subprocess
import sys

from refused import CALLS, TAKING_NONE

LOST = 99
VALGRIND = ["valgrind", "--quiet", "--leak-check=full", "--errors-for-leak-kinds=definite,possible", f"--error-exitcode={LOST}"]


def is_whole(calls, case):
    """Whether a case makes its calls, and does under valgrind what it does without, and loses nothing."""
    alone, watched = (subprocess.run([*before, calls, case], capture_output=True) for before in ([], VALGRIND))
    if alone.stdout and (alone.returncode, watched.returncode, watched.stdout) == (0, 0, alone.stdout):
        return True
    print(f"FAILED: calls of case {case}: status {alone.returncode}, {watched.returncode} under valgrind: {watched.stderr.decode()[:600]}")
    return False


def main():
    calls = os.path.abspath(sys.argv[1])
    if not shutil.which("valgrind"):
        print("not here, and skipped: leaks, without valgrind")
        return 0
    held = [is_whole(calls, case) for case in (*CALLS, *TAKING_NONE)]
    print(f"{calls}: {len(held)} cases looked through for leaks, {held.count(False)} failed")
    return 0 if all(held) else 1


if __name__ == "__main__":
    sys.exit(main())
