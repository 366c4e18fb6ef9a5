#!/usr/bin/env python3
"""Lone events over a run that parks: each is sent once the last handler completed the one before it.

    bench/lone.py                     a million events, some five minutes: none may take ten milliseconds
    bench/lone.py --events 10000      fewer
    bench/lone.py --micros 1000000    each may take longer, where other work runs

Ten milliseconds is what a thread that parks sleeps at most, so an event that takes as long may have met a thread that
nobody woke, or one whose processor others had: tests/README.md says how to tell them apart. Build the program first, by
`rt run -- --check` in `crates/disruptor_waits`. The status is 1 where an event took longer.
"""

import argparse
import os
import subprocess
import sys

TOP = os.path.dirname(os.path.dirname(os.path.abspath(__file__)))
WAITS = os.path.join(TOP, "crates", "disruptor_waits", "out", "disruptor_waits")
LATE = 5


def main():
    parser = argparse.ArgumentParser(description=__doc__, formatter_class=argparse.RawDescriptionHelpFormatter)
    parser.add_argument("--events", type=int, default=1_000_000)
    parser.add_argument("--micros", type=int, default=10_000)
    asked = parser.parse_args()
    ran = subprocess.run([WAITS, "one-slot", str(asked.events), str(asked.micros)], capture_output=True, text=True)
    print(ran.stderr.strip(), flush=True)
    if ran.returncode == LATE:
        sys.exit(f"FAILED: an event took more than {asked.micros} microseconds")
    if ran.returncode:
        sys.exit(f"FAILED: status {ran.returncode}")


if __name__ == "__main__":
    main()
