#!/usr/bin/env python3
"""Runs the example that journals its orders again and again over one file, kills some of its runs, and looks what the next one finds.

    tests/durable.py EXAMPLE [--runs N] [--seed WORD]

EXAMPLE is `example_durable`. A run finds the orders that are in the file, by a second reading of its bytes, and leaves a thousand more
there, which it adds up. One that is killed leaves those that it found, and behind them the first of its own. A file of another program is
refused, and stays as it is. The script prints a line for each failure, and then a count; its status is 0 where none failed.
"""

import argparse
import os
import random
import subprocess
import sys
import tempfile
import time

TOP = os.path.dirname(os.path.dirname(os.path.abspath(__file__)))
sys.dont_write_bytecode = True
sys.path.insert(0, f"{TOP}/tests/ledger")
from bank import records_of  # noqa: E402

# A run sends so many orders, and one that is killed lives up to so many seconds.
ORDERS, LONGEST = 1000, 0.05


def bytes_of(path):
    if not os.path.exists(path):
        return b""
    with open(path, "rb") as file:
        return file.read()


def quantity_of(records):
    """How much these orders are of: the second word of each."""
    return sum(int.from_bytes(record[8:], "little") for record in records) % 2**64


def run_to_its_end(program, path, before):
    """Runs the example, and gives why it is amiss, or None."""
    ran = subprocess.run([program, path], stdin=subprocess.DEVNULL, stdout=subprocess.PIPE, stderr=subprocess.STDOUT, timeout=60, check=False)
    after = records_of(bytes_of(path))
    if ran.returncode:
        return f"status {ran.returncode}, and it says {ran.stdout.decode()[:200]!r}"
    if after is None or after[: len(before)] != before or len(after) != len(before) + ORDERS:
        return "the file has not the orders from before and a thousand more"
    wanted = f"found {len(before)} orders\n{len(after)} orders of {quantity_of(after)}\n"
    return None if ran.stdout.decode() == wanted else f"it says {ran.stdout.decode()[:200]!r} in place of {wanted!r}"


def kill_within(program, path, before, seconds):
    """Kills a run after so many seconds, and gives why what it left is amiss, or None."""
    ran = subprocess.Popen([program, path], stdin=subprocess.DEVNULL, stdout=subprocess.DEVNULL, stderr=subprocess.DEVNULL)
    time.sleep(seconds)
    ran.kill()
    ran.wait()
    after = records_of(bytes_of(path))
    if after is None or after[: len(before)] != before:
        return "a run that was killed left not the orders from before"
    return None if len(after) <= len(before) + ORDERS else "a run that was killed left more than a thousand orders"


def refuses(program, path):
    """Runs the example over a file of another program, and gives why it is amiss, or None."""
    with open(path, "wb") as file:
        file.write(b"a letter, and no journal\n")
    was = bytes_of(path)
    ran = subprocess.run([program, path], stdin=subprocess.DEVNULL, stdout=subprocess.PIPE, stderr=subprocess.PIPE, timeout=60, check=False)
    if ran.returncode == 0 or ran.stdout:
        return f"a file of another program is not refused: {ran.stdout.decode()[:200]!r}"
    return None if bytes_of(path) == was else "a file of another program was changed"


def main():
    words = argparse.ArgumentParser()
    words.add_argument("example")
    words.add_argument("--runs", type=int, default=40)
    words.add_argument("--seed", default="orders")
    asked = words.parse_args()
    program, rng, failures = os.path.abspath(asked.example), random.Random(asked.seed), []
    with tempfile.TemporaryDirectory() as folder:
        path = os.path.join(folder, "orders.journal")
        for run in range(asked.runs):
            before = records_of(bytes_of(path))
            if run % 2:
                why = kill_within(program, path, before, rng.random() * LONGEST)
            else:
                why = run_to_its_end(program, path, before)
            if why:
                failures.append(f"FAILED: run {run}: {why}")
                break
        why = refuses(program, os.path.join(folder, "letter"))
        failures += [f"FAILED: {why}"] * bool(why)
    print("\n".join([*failures, f"{asked.example}: {asked.runs + 1} runs, {len(failures)} failed"]))
    return 1 if failures else 0


if __name__ == "__main__":
    sys.exit(main())
