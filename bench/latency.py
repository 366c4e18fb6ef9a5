#!/usr/bin/env python3
"""How long an event takes through a pipeline of three threads, from before its claim until the third has it, in
nanoseconds: the least, the mean, the median, of a hundred, a thousand and ten thousand events the last but one, and the most.

    bench/latency.py                   an event each microsecond, each 10 and each 100
    bench/latency.py --gaps 50         an event each 50 microseconds

The programs are ours in Rattle, and with `--library FOLDER`, which names what `make lib` left, those over its rings of slots from
Rust and from Java; LMAX's ring, in the program of ours from Java (bench/java), and an ArrayBlockingQueue; and channels of std, which
are crossbeam's. Each program runs for about `--seconds S` a gap (two without it), in turns, `--turns N` times (three without it), of
which the one with the middle mean counts. The first tenth of the events does not count; LMAX's programs and the queue
have sent twice as many before, to be warm. `--under WORDS` starts each run by these words, and `--record FILE` also writes
the figures to a file, as that of bench/measured. (Not by `chrt -r`: where threads spin on all processors, Linux stops such
threads for a twentieth of each second.)

Build ours first, by `rt run -- --check` in `crates/disruptor_waits`; `--program PATH` names another. LMAX's and the
ArrayBlockingQueue's are there where `javac` and the library are, as for bench/beside.py.
"""

import argparse
import os
import subprocess
import sys
import tempfile

import packages
from exchanges import TOP
from records import LATENCIES, Records

OURS = os.path.join(TOP, "crates", "disruptor_waits", "out", "disruptor_waits")
# How threads over each wait; those of LMAX's ring, over which the program in Java runs too, otherwise than ours.
WAYS = ("spinning", "yielding", "parking")
WAYS_IN_JAVA = {"slots": ("parking",), "lmax": ("spinning", "yielding", "blocking")}
CHANNELS = os.path.join(TOP, "bench", "plain", "latency", "main.rs")
# The parts of the events that take at most so long.
PARTS = (0.5, 0.99, 0.999, 0.9999)
MOST_EVENTS = 1_000_000


def over_packages(given, folder, of_rust, of_java):
    """The programs of such a name in Rust and in Java, over rings of slots and LMAX's; and how a class of Java is started."""
    library = os.path.abspath(given.library) if given.library else None
    rust = packages.of_rust(folder, library) if library else None
    found = {f"rust-slots {way}": [os.path.join(rust, of_rust), way] for way in WAYS if rust}
    java, libraries = packages.of_java(folder, given.lmax, library)
    for it in libraries:
        found |= {f"{'lmax' if it == 'lmax' else 'java-slots'} {way}": [*java, of_java, it, way] for way in WAYS_IN_JAVA[it]}
    return found, java


def programs(given, folder):
    """How each is started, before the number of events and the gap."""
    ours = ("plain", "ring", "plain-senders")
    found = {f"{exchange} {way}": [given.program, "latency", exchange, way] for exchange in ours for way in WAYS}
    channels = os.path.join(folder, "latency")
    subprocess.run(["rustc", "--edition", "2021", "-O", "-o", channels, CHANNELS], check=True)
    found["channels"] = [channels]
    others, java = over_packages(given, folder, "latency", "Latency")
    found |= others
    if java:
        found["array queue"] = [*java, "Latency", "queue", "blocking"]
    return found


def figures_of(times):
    """Least, mean, the parts' and greatest of what the events took."""
    times = sorted(times[len(times) // 10 :])
    parts = [times[min(len(times) - 1, int(part * len(times)))] for part in PARTS]
    return [times[0], round(sum(times) / len(times)), *parts, times[-1]]


def measured(words, under, *numbers):
    ran = subprocess.run([*under.split(), *words, *map(str, numbers)], stdout=subprocess.PIPE, text=True)
    if ran.returncode:
        sys.exit(f"{' '.join(words)} ended with {ran.returncode}")
    return figures_of([int(line) for line in ran.stdout.split()])


def in_turns(found, given, title, *numbers):
    """Of each program the run with the middle mean; prints a table of them."""
    if given.only:
        found = {name: words for name, words in found.items() if set(given.only) & set(name.split())}
    turns = {name: [] for name in found}
    for _ in range(given.turns):
        for name, words in found.items():
            turns[name].append(measured(words, given.under, *numbers))
    print(f"| {title} | {' | '.join(LATENCIES[2:])} |\n|---|{'---:|' * len(LATENCIES[2:])}")
    for name, runs in turns.items():
        figures = sorted(runs, key=lambda run: run[1])[len(runs) // 2]
        print(f"| {name} | {' | '.join(map(str, figures))} |", flush=True)
        yield name, figures


def parser_of(page):
    """What bench/round_trips.py reads of a command line too."""
    parser = argparse.ArgumentParser(description=page, formatter_class=argparse.RawDescriptionHelpFormatter)
    parser.add_argument("--turns", type=int, default=3)
    parser.add_argument("--only", nargs="+", metavar="WORD", help="the programs whose name has one of these words")
    parser.add_argument("--library", metavar="FOLDER")
    parser.add_argument("--lmax", default="/usr/share/java/disruptor.jar")
    parser.add_argument("--under", default="")
    parser.add_argument("--record", metavar="FILE")
    return parser


def main():
    parser = parser_of(__doc__)
    parser.add_argument("--gaps", type=int, nargs="+", default=[1, 10, 100], metavar="MICROS")
    parser.add_argument("--seconds", type=float, default=2)
    parser.add_argument("--program", default=OURS)
    given = parser.parse_args()
    manner = f"{given.under}, {given.seconds:g} seconds a run, the middle of {given.turns} turns".removeprefix(", ")
    records = Records(given.record, LATENCIES, manner)
    with tempfile.TemporaryDirectory() as folder:
        found = programs(given, folder)
        for gap in given.gaps:
            events = min(MOST_EVENTS, int(given.seconds * 1e6 / gap))
            for name, figures in in_turns(found, given, f"an event each {gap} µs", events, 1000 * gap):
                records.add(name, gap, *figures)
    records.save()


if __name__ == "__main__":
    main()
