#!/usr/bin/env python3
"""Long runs over exchanges, with a thread for each end.

    tests/long_runs.py                         some minutes
    tests/long_runs.py --events 1000000000     as many events as asked, through all topologies of the rings together
    tests/long_runs.py --rounds 100000         as many exchanges of each kind that are halted at a random time
    tests/long_runs.py --lone 1000000          as many lone events
    tests/long_runs.py --seed 7                other exchanges

First `disruptor_bench` passes events through each topology at three sizes; each handler adds up what it is shown, and a
wrong sum fails. Then `disruptor_halts` runs exchanges over each ring and behind the
lock, whose claims, polls, completions and halt fall at random times, and compares what each handler received with the
beginning of what was published. At last `disruptor_waits` sends lone events through two handlers that park, and tells
how many took so long that a wake-up may have been lost. The script prints a line for each run, and its status is 1 where
one failed. The programs are built by `rt run` in their crates' folders.
"""

import argparse
import os
import subprocess
import sys

TOP = os.path.dirname(os.path.dirname(os.path.abspath(__file__)))
BENCH = os.path.join(TOP, "crates", "disruptor_bench", "out", "disruptor_bench")
HALTS = os.path.join(TOP, "crates", "disruptor_halts", "out", "disruptor_halts")
WAITS = os.path.join(TOP, "crates", "disruptor_waits", "out", "disruptor_waits")
SIZES = (64, 1024, 65536)
# Topologies of several senders, which the program's list leaves out.
SEVERAL = [f"plain-senders3-{shape}{pace}" for shape in ("unicast", "pipeline", "multicast", "diamond") for pace in ("", "-b10", "-b100")]
ROUNDS_AT_ONCE = 200


def run(words):
    """What a program prints; where it fails, all ends."""
    ran = subprocess.run([str(word) for word in words], capture_output=True, text=True)
    if ran.returncode:
        sys.exit(f"FAILED: {' '.join(map(str, words))}: status {ran.returncode}, {ran.stderr.strip()}")
    return ran


def passed(topology, size, wanted):
    """Passes so many events or some more, and tells how many there were, and in how many seconds."""
    events = seconds = 0
    while events < wanted:
        rate = events / seconds if seconds else 0
        time = min(60, max(0.1, (wanted - events) / rate)) if rate else 0.1
        words = run([BENCH, topology, size, f"{time:.3f}", 1]).stdout.split()
        events += int(words[3])
        seconds += float(words[4])
    return events, seconds


def pass_events(wanted):
    topologies = [name for name in run([BENCH, "--list"]).stdout.split() if not name.startswith("core")] + SEVERAL
    each = -(-wanted // (len(topologies) * len(SIZES)))
    totals = {}
    for topology in topologies:
        for size in SIZES:
            events, seconds = passed(topology, size, each)
            ring = next((it for it in ("plain-senders", "plain") if topology.startswith(it)), "words")
            totals[ring] = totals.get(ring, 0) + events
            print(f"{topology} {size}: {events} events in {seconds:.1f} s, sums right", flush=True)
    for ring, events in totals.items():
        print(f"{events} events through {ring}, all sums right", flush=True)


def halt_exchanges(seed, rounds):
    """Adds up what the runs print, a line for each kind of exchange: `by KIND`, and the numbers."""
    done, totals = 0, {}
    while done < rounds:
        some = min(ROUNDS_AT_ONCE, rounds - done)
        for line in run([HALTS, seed + done, some]).stderr.splitlines():
            _, kind, *words = line.split()
            numbers = [int(word) for word in words if word.isdigit()]
            totals[kind] = [a + b for a, b in zip(totals.get(kind, [0] * len(numbers)), numbers)]
        done += some
    for kind, (published, received, handlers, drained) in totals.items():
        print(f"{done} exchanges by {kind}, halted at random times: {published} events published, {received} received")
        print(f"{handlers} handlers, each with a beginning of what was published, {drained} with all of it", flush=True)


def send_lone(events):
    print(f"by parking: {run([WAITS, 'lone', 'parking', events]).stderr.strip()}", flush=True)


def main():
    parser = argparse.ArgumentParser(description=__doc__, formatter_class=argparse.RawDescriptionHelpFormatter)
    parser.add_argument("--events", type=int, default=200_000_000)
    parser.add_argument("--rounds", type=int, default=2000)
    parser.add_argument("--lone", type=int, default=20_000)
    parser.add_argument("--seed", type=int, default=1)
    given = parser.parse_args()
    for program in (BENCH, HALTS, WAITS):
        if not os.path.exists(program):
            sys.exit(f"{program} is not built: run `rt run` in {os.path.dirname(os.path.dirname(program))}")
    pass_events(given.events)
    halt_exchanges(given.seed, given.rounds)
    send_lone(given.lone)


if __name__ == "__main__":
    main()
