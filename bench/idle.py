#!/usr/bin/env python3
"""What waiting costs, by each strategy: the processor time of two handlers that have nothing to do, how long a lone
event takes until both had it, and how many go through them where the sender never rests.

    chrt -r 10 bench/idle.py      four idle seconds and two thousand lone events by each strategy, before other work
    bench/idle.py --seconds 10    as many idle seconds
    bench/idle.py --record FILE   also writes the figures to a file, as those of bench/measured

Build the program first, by `rt run -- --check` in `crates/disruptor_waits`; `--program PATH` names another. Its lone events are sent each after
a pause of up to 255 microseconds. The rates are medians of five runs, by claims of one, ten and a hundred events.
"""

import argparse
import os
import re
import resource
import statistics
import subprocess

from records import WAITS as COLUMNS
from records import Records

TOP = os.path.dirname(os.path.dirname(os.path.abspath(__file__)))
WAITS = os.path.join(TOP, "crates", "disruptor_waits", "out", "disruptor_waits")
STRATEGIES = ("yielding", "spinning", "parking")
HANDLERS = 2
# Claims of so many events; and a run sends so many thousand.
CLAIMS, THOUSANDS, RUNS = (1, 10, 100), 20_000, 5


def processor_seconds():
    used = resource.getrusage(resource.RUSAGE_CHILDREN)
    return used.ru_utime + used.ru_stime


def run(program, *words):
    """Returns what the program prints on standard error, and how many seconds of a processor it took."""
    before = processor_seconds()
    ran = subprocess.run([program, *map(str, words)], stdout=subprocess.DEVNULL, stderr=subprocess.PIPE, text=True, check=True)
    return ran.stderr.strip(), processor_seconds() - before


def rate(program, strategy, claim):
    """Returns how many million events a second went through."""
    told, _ = run(program, "rate", strategy, THOUSANDS, claim)
    micros = int(told.split()[1])
    return 1000 * THOUSANDS / micros


def main():
    parser = argparse.ArgumentParser(description=__doc__, formatter_class=argparse.RawDescriptionHelpFormatter)
    parser.add_argument("--seconds", type=int, default=4)
    parser.add_argument("--events", type=int, default=2000)
    parser.add_argument("--program", default=WAITS)
    parser.add_argument("--record", metavar="FILE")
    given = parser.parse_args()
    manner = f"{given.seconds} idle seconds, {given.events} lone events, rates the median of {RUNS} runs"
    records = Records(given.record, COLUMNS, manner)
    for strategy in STRATEGIES:
        _, idle = run(given.program, "idle", strategy, given.seconds)
        share = 100 * idle / (given.seconds * HANDLERS)
        print(f"{strategy}: {idle:.2f} s of a processor in {given.seconds} s, {share:.1f} per cent a handler", flush=True)
        told, _ = run(given.program, "lone", strategy, given.events)
        print(f"{strategy}: {told}", flush=True)
        rates = [f"{statistics.median(rate(given.program, strategy, claim) for _ in range(RUNS)):.0f}" for claim in CLAIMS]
        print(f"{strategy}: {', '.join(rates)} million a second by claims of {CLAIMS}", flush=True)
        mean, most = re.search(r"(\d+) microseconds each, (\d+) at most", told).groups()
        records.add(strategy, f"{share:.1f}", mean, most, *rates)
    records.save()


if __name__ == "__main__":
    main()
