#!/usr/bin/env python3
"""Writes what was measured as tables: bench/FIGURES.md, from the files of bench/measured.

`--measured FOLDER` and `--figures FILE` name other places, as for a machine of your own.
"""

import argparse
import os
from itertools import chain

from exchanges import TOP
from records import read

HEAD = """# Figures

The tables of what was measured, from the records in `bench/measured`, as `make bench-plots` writes them.
[BENCHMARKS.md](../docs/BENCHMARKS.md) says how each was measured, what the programs are, and what the figures show.
"""
RATES = "Millions of events a second."
SECONDS = "Processor seconds, and megabytes at the peak."

# Of each file of records: its title, and what its figures are.
FILES = {
    "table": ("The four topologies", RATES),
    "memory": ("One sender, 1024 slots", RATES),
    "sizes": ("By the slots of the ring, claims of one", RATES),
    "handlers": ("By the number of handlers, 1024 slots, claims of one", RATES),
    "claims": ("By the events of a claim, one handler, 1024 slots", RATES),
    "widths": ("By the words of an event, one handler", RATES),
    "producers": ("By the number of producers, behind a lock, 1024 slots", RATES),
    "senders": ("By the number of senders of one ring, 1024 slots", RATES),
    "languages": ("From other languages, 1024 slots", RATES),
    "bytes": ("From other languages, by the bytes of an event, 1024 slots", RATES),
    "runs": ("Runs in one call, 1024 slots", RATES),
    "few": ("With two processors for all threads", RATES),
    "latency": ("How long an event takes through a pipeline of three threads", "Nanoseconds."),
    "round_trips": ("How long an event takes to another thread and back", "Nanoseconds."),
    "waiting": ("What waiting costs, by each strategy", "Of a processor per cent, microseconds, and millions of events a second by claims of 1, 10 and 100."),
    "files": ("The tools, beside plain Rust", SECONDS),
    "lengths": ("The tools, by the records of a file", SECONDS),
    "replays": ("The replays", "Seconds by the clock, and megabytes at the peak."),
    "answers": ("How fast a ledger answers", "Operations a second, and microseconds to the answer."),
    "recovery": ("A ledger of ten million operations", "Seconds by the clock, and kilobytes at the peak."),
    "first": ("How long who begins waits", "Seconds by the clock."),
}


# What else a line of figures may be called by.
NAMES = ("program", "strategy", "step", "gap_micros", "in_flight")


def kind(record):
    """A table of its own for one thread, for threads, for each gap between events, each number in flight, and each tool."""
    if "tool" in record:
        return record["tool"]
    if "gap_micros" in record:
        return f"an event each {record['gap_micros']} µs"
    if "in_flight" in record:
        return f"{int(record['in_flight']):,} in flight"
    if "topology" not in record:
        return next(it for it in NAMES if it in record)
    return "one thread" if record["topology"].startswith("core") else "a thread for each end"


def figures_of(record):
    """What a line is called, and each figure with the column in which it stands."""
    if "tool" in record:
        name = (f"{int(record['records']):,}", f"{int(record['size']):,}")
        yield name, record["program"], record["seconds"]
        if record.get("peak_kilobytes"):
            yield name, f"{record['program']}, MB", f"{int(record['peak_kilobytes']) / 1000:.1f}"
    else:
        yield (f"`{record['topology']}`", f"{int(record['size']):,}"), record["program"], record["million_events_a_second"]


def table(records, first):
    """A line a topology or length and size, a column a program, in the order in which they were measured."""
    rows, programs = {}, {}
    for name, program, figure in chain.from_iterable(map(figures_of, records)):
        rows.setdefault(name, {})[program] = figure
        programs[program] = None
    yield f"| {first} | slots | {' | '.join(programs)} |"
    yield f"|---|{'---:|' * (len(programs) + 1)}"
    for name, figures in rows.items():
        yield f"| {' | '.join(name)} | {' | '.join(figures.get(program, '') for program in programs)} |"


def lines(records, first):
    """A line a program, strategy or step, a column for each of its figures."""
    columns = [column for column in records[0] if column not in NAMES]
    yield f"| {first} | {' | '.join(it.replace('_', ' ') for it in columns)} |"
    yield f"|---|{'---:|' * len(columns)}"
    for record in records:
        figures = (f"{int(record[it]):,}" if record[it].isdigit() else record[it] for it in columns)
        yield f"| {next(record[it] for it in NAMES if it in record)} | {' | '.join(figures)} |"


def section(title, unit, head, records):
    yield f"## {title}"
    yield ""
    yield f"{unit} On {head['machine']}, load {head['load']}; {head['manner']}; {head['date']}."
    kinds = {}
    for record in records:
        kinds.setdefault(kind(record), []).append(record)
    for name, those in kinds.items():
        yield ""
        if "topology" in those[0] or "tool" in those[0]:
            yield from table(those, f"{name}: records" if "tool" in those[0] else name)
        else:
            yield from lines(those, name)
    yield ""


def main():
    parser = argparse.ArgumentParser(description=__doc__, formatter_class=argparse.RawDescriptionHelpFormatter)
    parser.add_argument("--measured", default=os.path.join(TOP, "bench", "measured"))
    parser.add_argument("--figures", default=os.path.join(TOP, "bench", "FIGURES.md"))
    given = parser.parse_args()
    written = [HEAD]
    for name, (title, unit) in FILES.items():
        path = os.path.join(given.measured, f"{name}.csv")
        if os.path.exists(path):
            written += section(title, unit, *read(path))
    with open(given.figures, "w") as file:
        file.write("\n".join(written).rstrip() + "\n")
    print(os.path.relpath(given.figures))


if __name__ == "__main__":
    main()
