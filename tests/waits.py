#!/usr/bin/env python3
"""Tries that who sleeps is woken, and that who waits takes no processor: no contract says either.

    tests/waits.py WAITS PROGRAM

WAITS is `disruptor_waits`, and PROGRAM `disruptor`. A thread that parks and that nobody wakes sleeps ten milliseconds. So where
it is woken an event that finds three handlers asleep takes less, and a replay over one slot, in which each operation meets
three sleepers, ends long before they could all have slept. What is tried goes before other work of the machine, where that is
allowed: else who is woken waits for a processor. The script prints a line for each failure, and then a count; its status is 0
where none failed.
"""

import contextlib
import os
import resource
import subprocess
import sys
import tempfile

EVENTS, SECONDS, OPERATIONS = 100, 2, 2000
# So many nanoseconds lie between events, and half of them take at most so many.
GAP, WOKEN_IN = 20_000_000, 7_000_000
# What idle handlers may take of a processor, in parts of one.
TAKEN = 0.1
# A replay whose sleepers nobody wakes takes as many sleeps of ten milliseconds as operations, or more.
REPLAYED_IN = OPERATIONS * 0.01 / 2


def processor_seconds():
    used = resource.getrusage(resource.RUSAGE_CHILDREN)
    return used.ru_utime + used.ru_stime


def goes_first():
    with contextlib.suppress(PermissionError):
        os.sched_setscheduler(0, os.SCHED_RR, os.sched_param(10))


def start(*words, **options):
    return subprocess.run([*map(str, words)], check=True, preexec_fn=goes_first, **options)


def wakes(waits):
    ran = start(waits, "latency", "ring", "parking", EVENTS, GAP, stdout=subprocess.PIPE, timeout=300)
    middle = sorted(map(int, ran.stdout.split()))[EVENTS // 2]
    return middle <= WOKEN_IN, f"half of {EVENTS} events took {middle / 1e6:.1f} milliseconds"


def rests(waits):
    before = processor_seconds()
    start(waits, "idle", "parking", SECONDS, stdout=subprocess.DEVNULL, timeout=300)
    taken = processor_seconds() - before
    return taken <= TAKEN * SECONDS, f"two idle handlers took {taken:.2f} seconds of a processor in {SECONDS}"


def replays(program, way):
    with tempfile.NamedTemporaryFile("w", suffix=".csv") as file:
        file.write("0,deposit,1,1\n" * OPERATIONS)
        file.flush()
        try:
            start(program, "replay", f"--by={way}", "--size=1", file.name, stdout=subprocess.DEVNULL, timeout=REPLAYED_IN)
        except subprocess.TimeoutExpired:
            return False, f"a replay by {way} of {OPERATIONS} operations over one slot took more than {REPLAYED_IN:.0f} seconds"
    return True, ""


def main():
    waits, program = map(os.path.abspath, sys.argv[1:3])
    tried = [wakes(waits), rests(waits), replays(program, "ring"), replays(program, "lock")]
    failures = [told for holds, told in tried if not holds]
    for told in failures:
        print(f"FAILED: {told}")
    print(f"{waits}: {len(tried)} cases of waiting, {len(failures)} failed")
    return 1 if failures else 0


if __name__ == "__main__":
    sys.exit(main())
