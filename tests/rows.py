#!/usr/bin/env python3
"""Runs the program on worked rows and on files at fault, and on files that are made to go many rounds through a ring.

    tests/rows.py PROGRAM

The files of rows/drive are for `drive`, and those of rows/replay for a replay by each way. The script prints a line for each
failure, and then a count; its status is 0 where none failed.
"""

import glob
import os
import re
import sys
import tempfile

sys.dont_write_bytecode = True
ROWS = os.path.join(os.path.dirname(os.path.abspath(__file__)), "rows")
sys.path.append(os.path.join(os.path.dirname(ROWS), "hostile"))
from run import WAYS, Bench, Case, Ran, cases_of, wanted_by_lock  # noqa: E402

# Tables in which each record has the line that it prints beside it.
RUNS = ("runs.txt", "graphs.txt")
# The sizes of the rings that a file of operations goes through, and the one that a file at fault does.
SIZES, SIZE_AT_FAULT = (1, 2, 4, 1024, 65536), 2
SIXTEEN = [f"h{k}" for k in range(1, 17)]


def runs_of(table):
    """The cases of a table of runs, all of which end well."""
    with open(table, encoding="utf-8") as file:
        parts = re.split("^== ", file.read(), flags=re.MULTILINE)[1:]
    for part in parts:
        name, *lines = part.rstrip("\n").split("\n")
        pairs = [line.partition(" => ") for line in lines]
        text = "".join(f"{record}\n" for record, _, _ in pairs)
        out = "".join(f"{reply}\n" for _, _, reply in pairs if reply)
        yield Case(name, text.encode(), Ran(0, out.encode(), b""))


def drive_rows(bench):
    for table in sorted(glob.glob(f"{ROWS}/drive/*.txt")):
        for case in (runs_of if os.path.basename(table) in RUNS else cases_of)(table):
            ran = bench.run("drive", bench.file("rows.csv", case.text))
            bench.judge(f"drive of {case.name}", ran, case.wanted)


def replay_rows(bench, table, sizes):
    """Behind the lock the events of several producers come in some order that keeps each producer's."""
    for case in cases_of(f"{ROWS}/replay/{table}"):
        for way in WAYS:
            for size in sizes:
                ran = bench.run("replay", f"--by={way}", f"--size={size}", bench.file("rows.csv", case.text))
                wanted = wanted_by_lock(ran, case.wanted) if way == "lock" else case.wanted
                bench.judge(f"replay by {way} at size {size} of {case.name}", ran, wanted)


def many_operations():
    """A hundred thousand operations of all kinds over a thousand accounts."""
    for k in range(100_000):
        producer, account, other, amount = k % 16, k % 1000, 7 * k % 1000, 1 + k % 97
        yield (
            f"{producer},deposit,{account},{amount}\n",
            f"{producer},withdraw,{other},{amount}\n",
            f"{producer},transfer,{account},{other},{amount}\n",
        )[k % 3]


def replay_many(bench):
    """Every size gives the same bytes."""
    file = bench.file("many.csv", "".join(many_operations()).encode())
    one, *others = [bench.run("replay", f"--size={size}", file) for size in (1, 2, 65536)]
    begins = one.status == 0 and one.err == b"" and one.out.startswith(b"journal 100000\n0,0,deposit,0,1\n")
    bench.judge("whether the replay of a hundred thousand operations begins as it is to", begins, True)
    for other in others:
        bench.judge("whether every size gives the same bytes", other == one, True)


def rounds_of_sixteen(follows):
    """Pairs of a record and its reply. Four events fill the ring 25 times. While a handler has not completed them, the last
    one waits, if it follows the others, and there is no room."""
    for first in range(0, 100, 4):
        all_four = range(first, first + 4)
        yield "claim,0,4", f"claimed {first} {first + 3}"
        yield from ((f"write,0,{s},{s}", "written") for s in all_four)
        yield f"publish,0,{first},{first + 3}", "published"
        for name in SIXTEEN:
            if follows and name != "h16":
                yield "poll,h16,4", "gating"
            yield "claim,0,1", "refused 1 no-room"
            yield f"poll,{name},4", f"batch {first} end {' '.join(map(str, all_four))}"
            yield f"complete,{name},{first + 4}", "completed"


def drive_greatest(bench):
    """The greatest ring serves one producer, and as many as there may be."""
    for mode in ("single", "multi,16"):
        text = f"ring,65536,{mode}\nwith,a\nstart\nclaim,0,65536\nwrite,0,65535,1\nclaim,0,1\n"
        ran = bench.run("drive", bench.file("greatest.csv", text.encode()))
        bench.judge(f"a ring of the greatest size, {mode}", ran, Ran(0, b"claimed 0 65535\nwritten\nrefused 1 no-room\n", b""))


def drive_sixteen(bench):
    chain = "with,h1\n" + "".join(f"then,{name}\n" for name in SIXTEEN[1:])
    beside, before = f"with,{','.join(SIXTEEN)}\n", f"with,{','.join(SIXTEEN[:15])}\nthen,h16\n"
    for name, graph, follows in (
        ("sixteen in a chain", chain, True),
        ("sixteen side by side", beside, False),
        ("fifteen before one", before, True),
    ):
        pairs = [*rounds_of_sixteen(follows)]
        text = f"ring,4,single\n{graph}start\n" + "".join(f"{record}\n" for record, _ in pairs)
        wanted = Ran(0, "".join(f"{reply}\n" for _, reply in pairs).encode(), b"")
        bench.judge(f"drive of {name}", bench.run("drive", bench.file("sixteen.csv", text.encode())), wanted)


def main():
    with tempfile.TemporaryDirectory(prefix="rows-") as folder:
        bench = Bench(sys.argv[1], folder)
        drive_rows(bench)
        drive_sixteen(bench)
        drive_greatest(bench)
        replay_rows(bench, "files.txt", SIZES)
        replay_rows(bench, "faults.txt", [SIZE_AT_FAULT])
        replay_rows(bench, "usual.txt", [SIZE_AT_FAULT])
        replay_many(bench)
    print(f"{sys.argv[1]}: {bench.cases} rows, {bench.failed} failed")
    return 1 if bench.failed else 0


if __name__ == "__main__":
    sys.exit(main())
