#!/usr/bin/env python3
"""How long who begins waits, in seconds by the clock: for a clone, for the shipped example to run before any proof, for a program of their
own over the libraries that are proved here, and for `rt check` after a change of its handler.

    bench/first.py                      needs the proved libraries below crates/example_orders (tools/prove.py dr_disruptor)
    bench/first.py --record FILE        also writes the figures to a file, as those of bench/measured

The handler's field is another after each change, in its contract and its body. What the proofs of the libraries take stands in
docs/BENCHMARKS.md.
"""

import argparse
import os
import statistics
import subprocess
import sys
import tempfile
import time

from exchanges import TOP
from records import STEPS, Records

# What the handler of crates/example_orders adds up, and what it does after each change.
FIELDS = ("order.quantity", "order.price", "order.account", "order.quantity")
PROVED = os.path.join(TOP, "crates", "dr_disruptor", "out", "rlib")


def seconds(words, folder):
    begun = time.monotonic()
    ran = subprocess.run(words, cwd=folder, stdout=subprocess.PIPE, stderr=subprocess.STDOUT, text=True)
    if ran.returncode:
        sys.exit(f"{' '.join(words)} ended with {ran.returncode}:\n{ran.stdout[-2000:]}")
    return time.monotonic() - begun


def change(path, old, new):
    with open(path) as file:
        text = file.read()
    # (in the contract and in the body, but not where the feed fills it)
    changed = text.replace(f"old.total + {old}", f"old.total + {new}").replace(f"wrapping_add({old})", f"wrapping_add({new})")
    if changed == text:
        sys.exit(f"{path} has no {old} to be changed")
    with open(path, "w") as file:
        file.write(changed)


def steps(folder):
    clone, own = os.path.join(folder, "clone"), os.path.join(folder, "own")
    yield "git clone", seconds(["git", "clone", "-q", TOP, clone], folder)
    yield "make try: the shipped example runs before any proof", seconds(["make", "try"], clone)
    yield "make hello, over proved libraries: a program is proved, built and run", seconds([os.path.join(TOP, "examples", "hello.sh"), own], TOP)
    crate = os.path.join(own, "crates", "hello")
    checks = []
    for old, new in zip(FIELDS, FIELDS[1:]):
        change(os.path.join(crate, "src", "main.rt"), old, new)
        checks.append(seconds(["rt", "check"], crate))
    yield "rt check after a change of its handler", statistics.median(checks)
    yield "rt check with no change", seconds(["rt", "check"], crate)


def main():
    parser = argparse.ArgumentParser(description=__doc__, formatter_class=argparse.RawDescriptionHelpFormatter)
    parser.add_argument("--record", metavar="FILE")
    given = parser.parse_args()
    if not os.path.isdir(PROVED):
        sys.exit("dr_disruptor is not proved here: run tools/prove.py dr_disruptor")
    records = Records(given.record, STEPS, "by the clock; checks the median of three")
    print("| step | seconds |\n|---|---:|")
    with tempfile.TemporaryDirectory() as folder:
        for step, took in steps(folder):
            print(f"| {step} | {took:.1f} |", flush=True)
            records.add(step, f"{took:.1f}")
    records.save()


if __name__ == "__main__":
    main()
