#!/usr/bin/env python3
"""Runs the program on random files, and compares what it does with a second reading of the docs.

    tests/second_reading/compare.py                        300 files of commands and 300 of operations
    tests/second_reading/compare.py --files 100000         as many as asked, of each kind
    tests/second_reading/compare.py drive --from 17 --files 1 --show      shows one file

It compares standard output, standard error and the status. `--by` takes another way of a replay: by lock the events may
come in any order that keeps each producer's, so that there the report is to be that of such an order. `--program PATH`
names another program than ./disruptor, and `--jobs N` how many files are tried at once. A file is made from its number
and `--seed`. It prints how often each reply and fault came, and of the first differences the smallest files that it
finds; its status is 1 where there is one.
"""

import argparse
import os
import subprocess
import sys
import tempfile
from collections import Counter, namedtuple
from functools import partial
from multiprocessing import Pool

from merging import merged_like
from random_files import random_file
from reading import Outcome, drive, replay

TOP = os.path.dirname(os.path.dirname(os.path.dirname(os.path.abspath(__file__))))
SIZES = (1, 2, 4, 64, 1024, 65536)
MOST_SHOWN = 5
# How many files one process tries before it tells.
SLICE = 50

Trial = namedtuple("Trial", "tool number text")


class Bench:
    """Runs the program on files, in a folder of its own."""

    def __init__(self, program, by):
        self.program, self.by = program, by
        self.folder = tempfile.TemporaryDirectory(prefix="second-reading-")
        self.file = os.path.join(self.folder.name, "file.csv")

    def run(self, trial):
        with open(self.file, "wb") as file:
            file.write(trial.text)
        words = [self.program, trial.tool]
        if trial.tool == "replay":
            words += [f"--by={self.by}", f"--size={SIZES[trial.number % len(SIZES)]}"]
        try:
            ran = subprocess.run(words + [self.file], stdin=subprocess.DEVNULL, capture_output=True, timeout=60)
        except subprocess.TimeoutExpired:
            return Outcome("none in a minute", b"", b"")
        return Outcome(ran.returncode, ran.stdout, ran.stderr)

    def compared(self, trial):
        """What the program did, and what it was to do."""
        did = self.run(trial)
        if trial.tool == "drive":
            return did, drive(trial.text)
        return did, merged_like(did, trial.text) if self.by == "lock" else replay(trial.text)

    def differs(self, trial):
        did, wanted = self.compared(trial)
        return did != wanted


def shrunk(bench, trial):
    """A smaller file that differs: lines go while there is a difference, more of them at first."""
    lines = trial.text.splitlines(keepends=True)
    step = max(1, len(lines) // 2)
    while True:
        k = 0
        while k < len(lines):
            fewer = lines[:k] + lines[k + step :]
            if bench.differs(trial._replace(text=b"".join(fewer))):
                lines = fewer
            else:
                k += step
        if step == 1:
            return trial._replace(text=b"".join(lines))
        step //= 2


def told(outcome):
    """What an outcome tells: its replies or parts by their first words, and its cause."""
    words = [line.split(" ") for line in outcome.out.decode().splitlines() if " " in line or line.isalpha()]
    found = Counter(" ".join(line if line[0] == "refused" else line[:1]) for line in words)
    if outcome.err:
        found[outcome.err.decode().partition(": ")[2].strip() or "another line"] += 1
    found["files"] += 1
    return found


def trial_of(tool, seed, number):
    return Trial(tool, number, random_file(tool, f"{seed} {number}"))


def tried(program, by, seed, tool, numbers):
    """Tries some files: what they are to tell, and the numbers of those at which there is a difference."""
    bench, found, differing = Bench(program, by), Counter(), []
    for number in numbers:
        trial = trial_of(tool, seed, number)
        did, wanted = bench.compared(trial)
        found += told(wanted)
        if did != wanted:
            differing.append(number)
    return found, differing


def tell(bench, trial):
    did, wanted = bench.compared(trial)
    print(f"{trial.tool}, file {trial.number}: {'as wanted' if did == wanted else 'DIFFERENT'}")
    print(f"  text   {trial.text}\n  is     {did}\n  wanted {wanted}", flush=True)


def options():
    parser = argparse.ArgumentParser(usage=__doc__)
    parser.add_argument("tools", nargs="*", metavar="drive|replay")
    parser.add_argument("--files", type=int, default=300)
    parser.add_argument("--from", type=int, default=0, dest="begin")
    parser.add_argument("--seed", default="0")
    parser.add_argument("--by", choices=("plain", "ring", "lock"), default="plain")
    parser.add_argument("--program", type=os.path.abspath, default=os.path.join(TOP, "disruptor"))
    parser.add_argument("--jobs", type=int, default=2)
    parser.add_argument("--show", action="store_true")
    return parser.parse_args()


def compare(tool, given, numbers):
    """Tries the files of one tool, and answers how many differed."""
    slices = [numbers[k : k + SLICE] for k in range(0, len(numbers), SLICE)]
    found, differing, bench = Counter(), 0, Bench(given.program, given.by)
    with Pool(given.jobs) as pool:
        try_slice = partial(tried, given.program, given.by, given.seed, tool)
        for tells, which in pool.imap(try_slice, slices):
            found += tells
            for number in which[: max(0, MOST_SHOWN - differing)]:
                tell(bench, shrunk(bench, trial_of(tool, given.seed, number)))
            differing += len(which)
    print(f"{tool}: {found.pop('files', 0)} files, {differing} differences")
    print("  " + ", ".join(f"{word} {count}" for word, count in sorted(found.items())), flush=True)
    return differing


def main():
    given = options()
    numbers = range(given.begin, given.begin + given.files)
    tools = given.tools or ("drive", "replay")
    if given.show:
        for tool in tools:
            for number in numbers:
                tell(Bench(given.program, given.by), trial_of(tool, given.seed, number))
    elif sum(compare(tool, given, numbers) for tool in tools):
        sys.exit(1)


if __name__ == "__main__":
    main()
