#!/usr/bin/env python3
"""Writes into docs/BENCHMARKS.md those of its tables that come from files of bench/measured: what stands between `<!-- figures: NAME -->`
and `<!-- end -->`, for each NAME whose file is there.

`--measured FOLDER` and `--page FILE` name other places, as for a machine of your own.
"""

import argparse
import os
import re

from exchanges import TOP
from records import read

BLOCK = re.compile(r"(<!-- figures: (\w+) -->\n).*?(<!-- end -->)", re.DOTALL)
PACES = ("", "-b10", "-b100")
CLAIMS = {"": "one", "-b10": "ten", "-b100": "a hundred"}
LANGUAGES = {
    "memory": "Rattle",
    "c-slots": "C",
    "cpp-slots": "C++",
    "rust-slots": "Rust",
    "java-slots": "Java",
    "java-lmax": "LMAX, same program",
    "python-slots": "Python",
    "c": "C, two words",
    "channel": "channels",
}
LEDGERS = {
    "ours": "ours",
    "ours-replica": "with a replica",
    "sqlite-batch": "SQLite, a transaction a batch",
    "sqlite-each": "SQLite, one an operation",
    "sync-batch": "a sync a batch",
    "sync-each": "a sync an operation",
}


def figure(number):
    """Two digits of a small one, else no fraction."""
    return f"{number:,.0f}" if number >= 10 else f"{number:.1f}" if number >= 1 else f"{number:.2f}"


def table(first, columns, rows):
    """Rows of a name and, by the columns' names, figures that may be missing."""
    yield f"| {first} | {' | '.join(columns)} |"
    yield f"|---|{'---:|' * len(columns)}"
    for name, figures in rows.items():
        yield f"| {name} | {' | '.join(figures.get(it, '') for it in columns)} |"


def rates(records):
    """Of each topology the rate of each program."""
    found = {}
    for record in records:
        found.setdefault(record["topology"], {})[record["program"]] = float(record["million_events_a_second"])
    return found


def by_topology(records, names):
    rows = {}
    for topology, those in rates(records).items():
        rows[f"`{topology}`"] = {name: figure(those[it]) for it, name in names.items() if it in those}
    return table("", list(names.values()), rows)


def span(ratios):
    """The least and the greatest of some ratios."""
    least, most = f"{min(ratios):.2f}", f"{max(ratios):.2f}"
    return least if least == most else f"{least} to {most}"


def ratios(records):
    """By how many times the rate differs, over all topologies with claims of one, ten and a hundred."""
    pairs = {
        "C of Rattle": ("c-slots", "memory"),
        "C++ of Rattle": ("cpp-slots", "memory"),
        "Rust of Rattle": ("rust-slots", "memory"),
        "Java of Rattle": ("java-slots", "memory"),
        "Java of LMAX": ("java-slots", "java-lmax"),
    }
    rows = {}
    for pace in PACES:
        here = [those for name, those in rates(records).items() if name.partition("-b")[2] == pace[2:]]
        found = {name: [it[a] / it[b] for it in here if a in it and b in it] for name, (a, b) in pairs.items()}
        rows[CLAIMS[pace]] = {name: span(those) for name, those in found.items() if those}
    return table("claims of", list(pairs), rows)


def in_flight(records, column):
    """A line for each number of operations in flight, a column a ledger."""
    rows = {}
    for record in records:
        rows.setdefault(f"{int(record['in_flight']):,}", {})[record["program"]] = float(record[column])
    return rows


def answers(records):
    columns = [*LEDGERS.values(), "ours of SQLite's better"]
    rows = {}
    for name, those in in_flight(records, "operations_a_second").items():
        rows[name] = {LEDGERS[it]: f"{rate:,.0f}" for it, rate in those.items() if it in LEDGERS}
        better = max((those[it] for it in ("sqlite-each", "sqlite-batch") if it in those), default=None)
        if better:
            rows[name][columns[-1]] = f"{those['ours'] / better:.1f}"
    return table("in flight", columns, rows)


def times(records):
    rows = {}
    for name, those in in_flight(records, "50%").items():
        rows[name] = {LEDGERS[it]: f"{micros:,.0f}" for it, micros in those.items() if it in LEDGERS}
    return table("in flight", list(LEDGERS.values()), rows)


def whole(records):
    """All that the file has, a line a record."""
    first, *columns = records[0]
    shown = {it[first]: {name: f"{int(it[name]):,}" if it[name].isdigit() else it[name] for name in columns} for it in records}
    renamed = {name: {column.replace("_", " "): it for column, it in row.items()} for name, row in shown.items()}
    return table(first, [it.replace("_", " ") for it in columns], renamed)


# The topologies that stand in the page; FIGURES.md has the others too.
SHOWN = ("unicast", "diamond", "senders3-unicast")
# Of each block the file that it comes from, and how.
BLOCKS = {
    "languages": ("languages", lambda records: by_topology([it for it in records if it["topology"].partition("-b")[0] in SHOWN], LANGUAGES)),
    "ratios": ("languages", ratios),
    "runs": ("runs", lambda records: by_topology(records, {"memory": "by hand", "run": "in one call", "lmax": "LMAX", "lmax-dsl": "LMAX, its DSL"})),
    "round_trips": ("round_trips", whole),
    "answers": ("answers", answers),
    "times": ("answers", times),
    "recovery": ("recovery", whole),
    "first": ("first", whole),
}


def main():
    parser = argparse.ArgumentParser(description=__doc__, formatter_class=argparse.RawDescriptionHelpFormatter)
    parser.add_argument("--measured", default=os.path.join(TOP, "bench", "measured"))
    parser.add_argument("--page", default=os.path.join(TOP, "docs", "BENCHMARKS.md"))
    given = parser.parse_args()

    def filled(block):
        name, made = BLOCKS[block[2]]
        path = os.path.join(given.measured, f"{name}.csv")
        if not os.path.exists(path):
            return block[0]
        return "".join([block[1], "\n", *(f"{line}\n" for line in made(read(path)[1])), "\n", block[3]])

    with open(given.page) as file:
        text = file.read()
    with open(given.page, "w") as file:
        file.write(BLOCK.sub(filled, text))
    print(os.path.relpath(given.page))


if __name__ == "__main__":
    main()
