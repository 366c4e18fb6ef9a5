#!/usr/bin/env python3
"""How long an event takes to another thread and back, in nanoseconds: through one ring to a handler that answers through another, the next
as soon as the answer is there. The figures are those of bench/latency.py.

    bench/round_trips.py --library out      over rings of slots from Rust and Java, LMAX's rings, and channels

Each program makes `--trips N` of them, in turns, `--turns N` times (three without it), of which the one with the middle mean counts. The
first tenth does not count; the programs in Java have made twice as many before, to be warm. `--library`, `--only`, `--under` and
`--record` are those of bench/latency.py.
"""

import os
import subprocess
import tempfile

from exchanges import TOP
from latency import in_turns, over_packages, parser_of
from records import ROUND_TRIPS, Records

CHANNELS = os.path.join(TOP, "bench", "plain", "round_trips", "main.rs")


def main():
    parser = parser_of(__doc__)
    parser.add_argument("--trips", type=int, default=100_000)
    given = parser.parse_args()
    manner = f"{given.under}, {given.trips:,} trips a run, the middle of {given.turns} turns".removeprefix(", ")
    records = Records(given.record, ROUND_TRIPS, manner)
    with tempfile.TemporaryDirectory() as folder:
        channels = os.path.join(folder, "round_trips")
        subprocess.run(["rustc", "--edition", "2021", "-O", "-o", channels, CHANNELS], check=True)
        found, _ = over_packages(given, folder, "round_trips", "RoundTrips")
        found["channels"] = [channels]
        for name, figures in in_turns(found, given, "there and back", given.trips):
            records.add(name, *figures)
    records.save()


if __name__ == "__main__":
    main()
