#!/usr/bin/env python3
"""Tables of `disruptor_bench`, which measures the exchanges.

    bench/exchanges.py table           events a second of each topology at sizes 64, 1024 and 65,536
    bench/exchanges.py instructions    instructions an event on one thread, by callgrind

`--program PATH` names a program; given twice, the two are measured in turns, as before and after a
change. `--seconds S` and `--rounds N` are those of `disruptor_bench`: without them 101 rounds of one
stretch, each so short that most of them run undisturbed by other work on the machine. Each rate is
the best of `--turns N` such runs, three without it. `--only WORD` leaves only topologies whose names
begin with it. `--record FILE` also writes a table of one program to a file, as those of bench/measured,
which bench/plots.py draws. The program is built by `rt run -- --list` in its crate's folder, which leaves
it where this script looks for it.
"""

import argparse
import os
import re
import subprocess
import tempfile

from records import RATES, Records

TOP = os.path.dirname(os.path.dirname(os.path.abspath(__file__)))
PROGRAM = os.path.join(TOP, "crates", "disruptor_bench", "out", "disruptor_bench")
SIZES = (64, 1024, 65536)
MORE_ROUNDS = 4


def run(words):
    return subprocess.run(words, stdout=subprocess.PIPE, check=True, text=True).stdout


def topologies(program, prefix):
    return [name for name in run([program, "--list"]).split() if name.startswith(prefix)]


def rate(program, topology, size, given):
    """Events a second of the round in the middle."""
    line = run([program, topology, str(size), str(given.seconds), str(given.rounds)])
    return int(line.split()[-1])


def best_rates(topology, size, given):
    """For each program the best of its runs, which are taken in turns."""
    best = [0] * len(given.program)
    for _ in range(given.turns):
        rates = [rate(program, topology, size, given) for program in given.program]
        best = [max(pair) for pair in zip(best, rates)]
    return best


def print_head(programs):
    """A column a size, or one a size and program, by the program's place on the command line."""
    marks = [""] if len(programs) == 1 else [f" ({k + 1})" for k in range(len(programs))]
    heads = [f"{size}{mark}" for size in SIZES for mark in marks]
    print(f"| topology | {' | '.join(heads)} |\n|{'---|' * (len(heads) + 1)}", flush=True)


def table(given):
    print_head(given.program)
    records = Records(given.record, RATES, f"{given.rounds} rounds, the best of {given.turns} turns")
    for topology in topologies(given.program[0], given.only):
        rates = [best_rates(topology, size, given) for size in SIZES]
        print(f"| {topology} | {' | '.join(f'{r:,}' for best in rates for r in best)} |", flush=True)
        for size, best in zip(SIZES, rates):
            records.add(topology, size, "ours", f"{best[0] / 1e6:.2f}")
    records.save()


def counted(program, topology, size, rounds, folder):
    """Events and instructions of so many rounds, each of one stretch of events."""
    note = os.path.join(folder, "callgrind.out")
    line = run(
        ["valgrind", "--quiet", "--tool=callgrind", f"--callgrind-out-file={note}"]
        + [program, topology, str(size), "0", str(rounds)]
    )
    with open(note) as file:
        total = re.search(r"^(?:summary|totals): (\d+)", file.read(), re.MULTILINE)
    return int(line.split()[3]) * rounds, int(total.group(1))


def instructions(given):
    """The difference of two lengths, so that opening the exchange counts for nothing."""
    print_head(given.program)
    with tempfile.TemporaryDirectory() as folder:
        for topology in topologies(given.program[0], given.only):
            print(f"| {topology} |", end="", flush=True)
            for size, program in ((size, program) for size in SIZES for program in given.program):
                few = counted(program, topology, size, 1, folder)
                more = counted(program, topology, size, 1 + MORE_ROUNDS, folder)
                print(f" {(more[1] - few[1]) / (more[0] - few[0]):.1f} |", end="", flush=True)
            print(flush=True)


def main():
    parser = argparse.ArgumentParser(description=__doc__, formatter_class=argparse.RawTextHelpFormatter)
    parser.add_argument("what", choices=["table", "instructions"])
    parser.add_argument("--program", action="append")
    parser.add_argument("--seconds", type=float, default=0.0)
    parser.add_argument("--rounds", type=int, default=101)
    parser.add_argument("--turns", type=int, default=3)
    parser.add_argument("--only")
    parser.add_argument("--record", metavar="FILE")
    given = parser.parse_args()
    given.program = given.program or [PROGRAM]
    if given.record and (given.what != "table" or len(given.program) > 1):
        parser.error("--record goes with the table of one program")
    given.only = given.only or ("" if given.what == "table" else "core")
    if given.what == "table":
        table(given)
    else:
        instructions(given)


if __name__ == "__main__":
    main()
