#!/usr/bin/env python3
"""Times the program beside the same tools in plain Rust (bench/plain/plain.rs), on files that it makes.

    bench/bench.py                    all rows
    bench/bench.py drive              10 thousand and a million commands at sizes 64 and 65,536
    bench/bench.py replay             a million events of all kinds at sizes 1, 1024 and 65,536
    bench/bench.py files              both of these
    bench/bench.py lengths            both tools on files of a thousand to a million records, at size 1024

`--program PATH` names another program than ./disruptor, and `--runs N` another number of runs than
five. Both programs run in turns. Seconds are processor time, of user and system, since other work on
the machine then counts for little: the median of the runs. Memory is the greatest peak. Before it is
timed, a row's output is compared. `--record FILE` also writes seconds and peaks to a file, as those of
bench/measured, which bench/plots.py and bench/tables.py show.
"""

import argparse
import os
import resource
import statistics
import subprocess
import sys
import tempfile

from records import SECONDS, Records

TOP = os.path.dirname(os.path.dirname(os.path.abspath(__file__)))
PLAIN = os.path.join(TOP, "bench", "plain", "plain.rs")
HEAD = "| tool | size | records | seconds | records a second | peak MiB | plain seconds | plain records a second | plain peak MiB | times the time | times the memory |"


def commands(size, count):
    """One producer and one handler, eight events at a time: 12 commands a round."""
    yield f"ring,{size},single\nwith,a\nstart\n"
    first = 0
    for _ in range(0, count, 12):
        last = first + 7
        yield "claim,0,8\n"
        for s in range(first, last + 1):
            yield f"write,0,{s},{s}\n"
        yield f"publish,0,{first},{last}\npoll,a,8\ncomplete,a,{last + 1}\n"
        first = last + 1


def events(count):
    """Deposits, withdrawals and transfers over a thousand accounts, some of them refused."""
    for k in range(count):
        account, other, amount = k % 1000, (7 * k) % 1000, 1 + k % 97
        if k % 3 == 0:
            yield f"{k % 16},deposit,{account},{amount}\n"
        elif k % 3 == 1:
            yield f"{k % 16},withdraw,{account},{amount}\n"
        else:
            yield f"{k % 16},transfer,{account},{other},{amount}\n"


def write_file(folder, name, lines):
    path = os.path.join(folder, name)
    with open(path, "w") as file:
        file.writelines(lines)
    return path


def build_plain(folder):
    program = os.path.join(folder, "plain")
    subprocess.run(["rustc", "--edition", "2021", "-O", "-o", program, PLAIN], check=True)
    return program


def processor_seconds():
    """What all children took so far."""
    usage = resource.getrusage(resource.RUSAGE_CHILDREN)
    return usage.ru_utime + usage.ru_stime


def run_once(words, note):
    """Seconds and peak kilobytes of one run, its output thrown away."""
    # A child of this script begins with the script's own peak, so that `time` starts the program.
    timed = ["/usr/bin/time", "-f", "%M", "-o", note] + words
    begun = processor_seconds()
    status = subprocess.run(timed, stdout=subprocess.DEVNULL).returncode
    seconds = processor_seconds() - begun
    if status != 0:
        sys.exit(f"{' '.join(words)} ended with {status}")
    with open(note) as file:
        return seconds, int(file.read().split()[-1])


def measure(programs, runs, note):
    """For each program the median of its seconds and its greatest peak; they run in turns."""
    taken = [[] for _ in programs]
    for _ in range(runs):
        for one, words in zip(taken, programs):
            one.append(run_once(words, note))
    return [(statistics.median(s for s, _ in one), max(peak for _, peak in one)) for one in taken]


def check_equal(programs):
    outputs = [subprocess.run(words, stdout=subprocess.PIPE, check=True).stdout for words in programs]
    if outputs[0] != outputs[1]:
        sys.exit(f"{' '.join(programs[0])} and {' '.join(programs[1])} differ")


class Bench:
    """The two programs, and what both are given."""

    def __init__(self, given, folder):
        self.folder = folder
        self.program = given.program
        self.plain = build_plain(folder)
        self.runs = given.runs
        self.records = Records(given.record, SECONDS, f"processor time, the median of {given.runs} runs")

    def row(self, tool, size, count, path):
        sized = ["--size", str(size)] if tool == "replay" else []
        programs = [[self.program, tool] + sized + [path], [self.plain, tool, path]]
        check_equal(programs)
        taken = measure(programs, self.runs, os.path.join(self.folder, "peak"))
        (seconds, peak), (plain_seconds, plain_peak) = taken
        print(
            f"| {tool} | {size} | {count} | {seconds:.3f} | {count / seconds:.0f} | {peak / 1024:.1f}"
            f" | {plain_seconds:.3f} | {count / plain_seconds:.0f} | {plain_peak / 1024:.1f}"
            f" | {seconds / plain_seconds:.2f} | {peak / plain_peak:.2f} |",
            flush=True,
        )
        self.records.add(tool, size, count, "ours", f"{seconds:.4f}", peak)
        self.records.add(tool, size, count, "plain", f"{plain_seconds:.4f}", plain_peak)


def drive_rows(bench):
    for size in (64, 65536):
        for count in (10_000, 1_000_000):
            bench.row("drive", size, count, write_file(bench.folder, "commands.csv", commands(size, count)))


def replay_rows(bench):
    path = write_file(bench.folder, "events.csv", events(1_000_000))
    for size in (1, 1024, 65536):
        bench.row("replay", size, 1_000_000, path)


def file_rows(bench):
    drive_rows(bench)
    replay_rows(bench)


def length_rows(bench):
    for count in (1_000, 10_000, 100_000, 1_000_000):
        bench.row("drive", 1024, count, write_file(bench.folder, "commands.csv", commands(1024, count)))
        bench.row("replay", 1024, count, write_file(bench.folder, "events.csv", events(count)))


ROWS = {"drive": drive_rows, "replay": replay_rows, "files": file_rows, "lengths": length_rows}


def main():
    parser = argparse.ArgumentParser(description=__doc__, formatter_class=argparse.RawTextHelpFormatter)
    parser.add_argument("rows", nargs="?", choices=ROWS)
    parser.add_argument("--program", default="./disruptor")
    parser.add_argument("--runs", type=int, default=5)
    parser.add_argument("--record", metavar="FILE")
    given = parser.parse_args()
    print(f"{HEAD}\n|{'---|' * (HEAD.count('|') - 1)}", flush=True)
    with tempfile.TemporaryDirectory() as folder:
        bench = Bench(given, folder)
        for name in [given.rows] if given.rows else ("files", "lengths"):
            ROWS[name](bench)
        bench.records.save()


if __name__ == "__main__":
    main()
