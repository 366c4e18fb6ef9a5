#!/usr/bin/env python3
"""Counts the instructions an event on one thread, and fails where they are a tenth above what is on record.

  tests/instructions.py BENCH PROGRAM            those of tests/instructions.csv, by callgrind
  tests/instructions.py --record BENCH PROGRAM   and puts what it counts on record

BENCH is `disruptor_bench` as LLVM built it, and PROGRAM `disruptor`. A count does not depend on what else the machine does,
as time does, so that a hint to inline that got lost is seen. Each is the difference of a short run and a long one, so that
opening the exchange counts for nothing. Where there is no valgrind it says so, and counts nothing.
"""

import argparse
import csv
import os
import re
import shutil
import subprocess
import sys
import tempfile

TOP = os.path.dirname(os.path.dirname(os.path.abspath(__file__)))
sys.dont_write_bytecode = True
sys.path.insert(0, f"{TOP}/bench")
import bench  # noqa: E402

RECORD = f"{TOP}/tests/instructions.csv"
# What is counted: topologies of the core, and the program's tools, each over files of so many records.
TOPOLOGIES = [f"core-{shape}{pace}" for shape in ("unicast", "multicast") for pace in ("", "-step", "-b10")]
TOOLS = {"drive": lambda count: bench.commands(1024, count), "replay": bench.events}
SLOTS, FEW, MANY, SHORT, LONG = "1024", 1, 3, 2_000, 12_000
MOST = 1.1


def counted(words, folder):
    """Runs a program, and returns what it wrote and how many instructions it took."""
    note = f"{folder}/callgrind.out"
    call = ["valgrind", "--quiet", "--tool=callgrind", f"--callgrind-out-file={note}", *words]
    said = subprocess.run(call, stdout=subprocess.PIPE, check=True, text=True).stdout
    return said, int(re.search(r"^(?:summary|totals): (\d+)", open(note, encoding="utf-8").read(), re.M)[1])


def of_topology(program, name, folder):
    """Returns the instructions an event of one topology of `disruptor_bench`."""
    runs = [(rounds, *counted([program, name, SLOTS, "0", str(rounds)], folder)) for rounds in (FEW, MANY)]
    events, instructions = zip(*((int(said.split()[3]) * rounds, count) for rounds, said, count in runs))
    return (instructions[1] - instructions[0]) / (events[1] - events[0])


def of_tool(program, name, folder):
    """Returns the instructions a record of `drive` or `replay`."""
    found = {}
    for count in (SHORT, LONG):
        file = bench.write_file(folder, f"{name}.csv", list(TOOLS[name](count)))
        found[count] = counted([program, name, file], folder)[1]
    return (found[LONG] - found[SHORT]) / (LONG - SHORT)


def all_counts(benched, program):
    with tempfile.TemporaryDirectory() as folder:
        for name in TOPOLOGIES:
            yield name, of_topology(benched, name, folder)
        for name in TOOLS:
            yield name, of_tool(program, name, folder)


def on_record():
    with open(RECORD, encoding="utf-8", newline="") as file:
        return {name: float(count) for name, count in csv.reader(file)}


def record(counts):
    with open(RECORD, "w", encoding="utf-8", newline="") as file:
        csv.writer(file, lineterminator="\n").writerows((name, f"{count:.1f}") for name, count in counts)


def compared(counts):
    """Returns how many counts are a tenth above those on record, or not there."""
    kept, failed = on_record(), 0
    for name, count in counts:
        if count > MOST * kept.get(name, 0):
            print(f"FAILED: {name} takes {count:.1f} instructions an event, and {kept.get(name, 'none')} are on record")
            failed += 1
    return failed


def main():
    parser = argparse.ArgumentParser(description=__doc__, formatter_class=argparse.RawDescriptionHelpFormatter)
    parser.add_argument("--record", action="store_true")
    parser.add_argument("bench")
    parser.add_argument("program")
    asked = parser.parse_args()
    if not shutil.which("valgrind"):
        print("not here, and skipped: instructions, without valgrind")
        return 0
    counts = list(all_counts(asked.bench, asked.program))
    if asked.record:
        record(counts)
    failed = compared(counts)
    print(f"instructions: {len(counts)} counts, {failed} failed")
    return 1 if failed else 0


if __name__ == "__main__":
    sys.exit(main())
