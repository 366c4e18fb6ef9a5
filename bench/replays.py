#!/usr/bin/env python3
"""Compares the program's three replays on files of a million operations that it makes: of one producer, and of sixteen.

    bench/replays.py                  at sizes 64, 1024 and 65,536, and ten times the operations at 1024

`--program PATH` names another program than ./disruptor, `--count N` another number of operations, and `--sizes N ..`
other sizes. `--record FILE` also writes seconds and peaks of memory to a file, as those of bench/measured. By ring the report has to be plain's, byte by byte, and by lock too where there is one producer; where there
are several it has to be that of some order which keeps each producer's events in theirs, by the second reading in tests/.
Seconds are of one run, by the clock, since the threads of a replay run at the same time.
"""

import argparse
import os
import subprocess
import sys
import tempfile
import time

from bench import TOP, events, write_file
from records import SECONDS, Records

sys.path.append(os.path.join(TOP, "tests", "second_reading"))
from merging import merged_like  # noqa: E402
from reading import Outcome  # noqa: E402

WAYS = ("plain", "ring", "lock")


def of_one_producer(lines):
    return ("0," + line.split(",", 1)[1] for line in lines)


def replay(program, way, size, path):
    """The report of one run, its seconds, and its peak of memory in kilobytes."""
    with tempfile.NamedTemporaryFile("r") as note:
        words = [program, "replay", "--by", way, "--size", str(size), path]
        begun = time.monotonic()
        ran = subprocess.run(["/usr/bin/time", "-f", "%M", "-o", note.name, *words], stdout=subprocess.PIPE)
        seconds = time.monotonic() - begun
        if ran.returncode != 0:
            sys.exit(f"{' '.join(words)} ended with {ran.returncode}")
        return ran.stdout, seconds, int(note.read().split()[-1])


def agrees(report, plain, path):
    """Whether a report is plain's, or that of another order that keeps each producer's."""
    if report == plain:
        return True
    with open(path, "rb") as file:
        return merged_like(Outcome(0, report, b""), file.read()).out == report


def row(asked, records, producers, size, count, path):
    ran = {way: replay(asked.program, way, size, path) for way in WAYS}
    plain = ran["plain"][0]
    if ran["ring"][0] != plain:
        sys.exit(f"the report by ring differs at size {size}")
    is_long = count > asked.count
    if not (is_long or ran["lock"][0] == plain or producers > 1 and agrees(ran["lock"][0], plain, path)):
        sys.exit(f"the report by lock differs at size {size}")
    figures = (f"{ran[way][1]:.2f}" for way in WAYS), (f"{ran[way][2] / 1024:.0f}" for way in WAYS)
    print(f"| {producers} | {size} | {count} | {' | '.join(it for those in figures for it in those)} |", flush=True)
    for way in WAYS:
        records.add(f"replay of {producers} producer{'s' * (producers > 1)}", size, count, way, f"{ran[way][1]:.2f}", ran[way][2])


def main():
    parser = argparse.ArgumentParser(description=__doc__, formatter_class=argparse.RawDescriptionHelpFormatter)
    parser.add_argument("--program", default=os.path.join(TOP, "disruptor"))
    parser.add_argument("--count", type=int, default=1_000_000)
    parser.add_argument("--sizes", type=int, nargs="+", default=[64, 1024, 65536])
    parser.add_argument("--record", metavar="FILE")
    asked = parser.parse_args()
    records = Records(asked.record, SECONDS, "by the clock, one run")
    with tempfile.TemporaryDirectory() as folder:
        one = write_file(folder, "one.csv", of_one_producer(events(asked.count)))
        sixteen = write_file(folder, "sixteen.csv", events(asked.count))
        columns = [*WAYS, *(f"{way} MiB" for way in WAYS)]
        print(f"| producers | size | records | {' | '.join(columns)} |\n|{'---|' * (3 + len(columns))}")
        for producers, path in ((1, one), (16, sixteen)):
            for size in asked.sizes:
                row(asked, records, producers, size, asked.count, path)
        row(asked, records, 16, 1024, 10 * asked.count, write_file(folder, "long.csv", events(10 * asked.count)))
    records.save()


if __name__ == "__main__":
    main()
