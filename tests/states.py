#!/usr/bin/env python3
"""Compares what `drive --state` tells of command files with a second reading of the docs.

    tests/states.py PROGRAM                   the examples, the files of rows/ and hostile/, and 200 random ones
    tests/states.py PROGRAM --files 10000     as many random ones as asked

The lines of the replies have to be those of `drive`, and the run has to end as `drive` does. The script prints a line for each
failure, and then a count; its status is 0 where none failed.
"""

import argparse
import glob
import os
import sys
import tempfile
from itertools import chain

sys.dont_write_bytecode = True
HERE = os.path.dirname(os.path.abspath(__file__))
TOP = os.path.dirname(HERE)
sys.path += [os.path.join(HERE, "hostile"), os.path.join(HERE, "second_reading")]
from random_files import random_file  # noqa: E402
from rows import RUNS, runs_of  # noqa: E402
from run import Bench, Ran, cases_of  # noqa: E402
from standing import drive_states  # noqa: E402


def cases_in(tables, cases):
    """The name and the text of each case of some tables."""
    return [(case.name, case.text) for table in tables for case in cases(table)]


def worked_files():
    """The examples, and the worked runs of the tables."""
    for path in sorted(glob.glob(f"{TOP}/examples/*.csv")):
        with open(path, "rb") as file:
            yield os.path.basename(path), file.read()
    yield from cases_in([f"{HERE}/rows/drive/{name}" for name in RUNS], runs_of)


def hostile_files():
    return cases_in([f"{HERE}/hostile/drive.txt"], cases_of)


def files_at_fault():
    tables = sorted(glob.glob(f"{HERE}/rows/drive/*.txt"))
    return cases_in([table for table in tables if os.path.basename(table) not in RUNS], cases_of)


def judge_states(bench, name, text):
    file = bench.file("states.csv", text)
    told, plain = bench.run("drive", "--state", file), bench.run("drive", file)
    bench.judge(f"drive --state of {name}", told, Ran(*drive_states(text)))
    replies = b"".join(line for line in told.out.splitlines(keepends=True) if not line.startswith(b"state "))
    bench.judge(f"the replies among the states of {name}", told._replace(out=replies), plain)


def main():
    parser = argparse.ArgumentParser(usage=__doc__)
    parser.add_argument("program", type=os.path.abspath)
    parser.add_argument("--files", type=int, default=200)
    given = parser.parse_args()
    with tempfile.TemporaryDirectory(prefix="states-") as folder:
        bench = Bench(given.program, folder)
        for name, text in chain(worked_files(), hostile_files(), files_at_fault()):
            judge_states(bench, name, text)
        for k in range(given.files):
            judge_states(bench, f"random file {k}", random_file("drive", f"states {k}"))
    print(f"states: {bench.cases} tried, {bench.failed} failed")
    return 1 if bench.failed else 0


if __name__ == "__main__":
    sys.exit(main())
