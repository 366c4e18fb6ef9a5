#!/usr/bin/python3
"""Draws what was measured: from each file of bench/measured its SVG files in docs/pictures.

    bench/plots.py        all files that are there

`--measured FOLDER` and `--pictures FOLDER` name other folders, as for a machine of your own. It needs
Matplotlib, of the distribution's package python3-matplotlib, and so the distribution's own Python.
"""

import argparse
import math
import os
import re
import sys
from itertools import chain
from typing import NamedTuple

from records import read

try:
    import matplotlib
except ImportError:
    sys.exit("bench/plots.py: no Matplotlib for this Python; on Debian: apt-get install python3-matplotlib")

matplotlib.use("svg")
from matplotlib import pyplot  # noqa: E402
from matplotlib.ticker import NullLocator  # noqa: E402

TOP = os.path.dirname(os.path.dirname(os.path.abspath(__file__)))
RATE = "million events a second"
SLOTS = "1024 slots"
SHAPES = ("unicast", "pipeline", "multicast", "diamond")
TOPOLOGY = re.compile(
    r"(?P<core>core-)?(bytes(?P<bytes>\d+)-)?((lock|senders)(?P<producers>\d+)-)?(?P<shape>[a-z]+)(?P<handlers>\d+)?(-b(?P<claim>\d+))?"
)
# Text stays text, and the same records give the same bytes.
STYLE = {
    "svg.fonttype": "none",
    "svg.hashsalt": "disruptor",
    "font.sans-serif": ["DejaVu Sans", "Verdana", "Arial"],
    "font.size": 9,
    "axes.titlesize": 10,
    "axes.spines.top": False,
    "axes.spines.right": False,
    "axes.axisbelow": True,
}
FOOT = 0.35  # inches below a picture, for its machine and date


class Look(NamedTuple):
    name: str
    colour: str
    marker: str


# Each program looks the same in all pictures, and comes in this order.
LOOKS = {
    "ours": Look("ours", "#0B5FA5", "o"),
    "memory": Look("ours, plain memory", "#4FA3E0", "o"),
    "ring": Look("plain ring", "#B35C00", "s"),
    "words": Look("plain words", "#00795A", "s"),
    "slots": Look("plain memory by hand", "#6BBF9F", "s"),
    "plain": Look("plain Rust", "#5B4A9E", "s"),
    "lmax": Look("LMAX", "#A3326F", "D"),
    "lmax-try": Look("LMAX tryNext", "#C77BA4", "d"),
    "c": Look("C, two words", "#9DB8CF", "o"),
    "c-slots": Look("C", "#0B5FA5", "o"),
    "cpp-slots": Look("C++", "#00795A", "s"),
    "rust-slots": Look("Rust", "#B35C00", "s"),
    "java-slots": Look("Java", "#5B4A9E", "D"),
    "python-slots": Look("Python", "#8A6D00", "v"),
    "java-lmax": Look("LMAX", "#A3326F", "D"),
    "crossbeam": Look("crossbeam", "#C4776C", "p"),
    "run": Look("ours, one call", "#0B5FA5", "o"),
    "lmax-dsl": Look("LMAX, its DSL", "#A3326F", "D"),
    "deque": Look("deques", "#707070", "^"),
    "channel": Look("channels", "#9A3B2E", "p"),
    "mutex": Look("mutex", "#8A6D00", "v"),
    "plain spinning": Look("plain spinning", "#0B5FA5", "o"),
    "plain parking": Look("plain parking", "#5B9BD0", "o"),
    "rust-slots spinning": Look("Rust spinning", "#B35C00", "s"),
    "java-slots parking": Look("Java parking", "#5B4A9E", "D"),
    "lmax spinning": Look("LMAX spinning", "#A3326F", "D"),
    "lmax blocking": Look("LMAX blocking", "#C77BA4", "d"),
    "array queue": Look("array queue", "#707070", "^"),
    "channels": Look("channels", "#8A6D00", "v"),
    "sqlite-each": Look("SQLite, one", "#C77BA4", "d"),
    "sqlite-batch": Look("SQLite, batch", "#A3326F", "D"),
    "sync-each": Look("a sync each", "#707070", "^"),
    "ours-replica": Look("with a replica", "#4FA3E0", "o"),
}


class Rate(NamedTuple):
    """A record of events a second, with the topology's name taken apart."""

    threads: bool
    producers: int
    shape: str
    handlers: int
    claim: int
    bytes: int
    size: int
    program: str
    rate: float


def rates(records):
    """All but those of one event at a time (`-step`)."""
    found = []
    for record in records:
        name = TOPOLOGY.fullmatch(record["topology"])
        if name:
            producers, handlers, claim, width = (int(name[part] or 1) for part in ("producers", "handlers", "claim", "bytes"))
            rate = float(record["million_events_a_second"])
            where = (name["core"] is None, producers, name["shape"], handlers, claim, width, int(record["size"]))
            found.append(Rate(*where, record["program"], rate))
    return found


def lines_of(points):
    """From triples of a program, an x and a y: for each program its points by x."""
    lines = {}
    for program, x, y in points:
        lines.setdefault(program, {})[x] = y
    return {program: sorted(lines[program].items()) for program in LOOKS if program in lines}


def apart(heights, gap, most):
    """The same heights, moved up where two of them are nearer than the gap, and down where one would be above the most."""
    moved = list(heights)
    order = sorted(range(len(heights)), key=lambda k: heights[k])
    for below, above in zip(order, order[1:]):
        moved[above] = max(moved[above], moved[below] + gap)
    for above in reversed(order):
        moved[above] = min(moved[above], most)
        most = moved[above] - gap
    return moved


def ticks_over(values, steps=(1, 2, 5)):
    """Of these steps times powers of ten, those that just hold the values between them."""
    values = list(values)
    least, greatest = min(values), max(values)
    powers = range(math.floor(math.log10(least)), math.ceil(math.log10(greatest)) + 1)
    ticks = [step * 10.0**k for k in powers for step in steps]
    first = max(tick for tick in ticks if tick <= least)
    last = min(tick for tick in ticks if tick >= greatest)
    return [tick for tick in ticks if first <= tick <= last]


def logarithmic(axis, ticks):
    """Ticks at these values, in plain figures."""
    axis.set_ticks(ticks, [f"{tick:,.0f}" if tick >= 1 else f"{tick:g}" for tick in ticks])
    axis.set_minor_locator(NullLocator())


def name_lines(axes, lines):
    """Each line's name at its end, once it is settled where the lines are."""
    points_a_pixel = 72 / axes.figure.dpi
    ends = [axes.transData.transform(points[-1])[1] * points_a_pixel for points in lines.values()]
    top = axes.bbox.ymax * points_a_pixel
    for (program, points), end, height in zip(lines.items(), ends, apart(ends, 10, top)):
        look = LOOKS[program]
        place = {"xytext": (7, height - end), "textcoords": "offset points", "va": "center"}
        axes.annotate(look.name, points[-1], color=look.colour, **place)


def draw_lines(axes, lines):
    for program, points in lines.items():
        look = LOOKS[program]
        axes.plot(*zip(*points), color=look.colour, marker=look.marker, markersize=4, linewidth=1.5)
    axes.grid(True, which="major", color="#DDDDDD", linewidth=0.6)


def line_picture(panels, x_label, x_ticks, y_label):
    """Two panels a row, each of a title and lines; logarithmic axes, the same in a column."""
    rows = math.ceil(len(panels) / 2)
    height = 2.9 * rows + FOOT
    figure, grid = pyplot.subplots(rows, 2, sharex=True, sharey="col", squeeze=False, figsize=(9.2, height))
    for axes, (title, lines) in zip(grid.flat, panels):
        axes.set(title=title, xscale="log", yscale="log")
        draw_lines(axes, lines)
    for k, axes in enumerate(grid[0]):
        logarithmic(axes.yaxis, ticks_over(y for _, lines in panels[k::2] for _, y in chain(*lines.values())))
    logarithmic(grid[0][0].xaxis, x_ticks)
    width = x_ticks[-1] / x_ticks[0]
    longest = max(len(LOOKS[program].name) for _, lines in panels for program in lines)
    grid[0][0].set_xlim(x_ticks[0] / width**0.05, x_ticks[-1] * width ** (0.032 * longest))
    for axes in grid[-1]:
        axes.set_xlabel(x_label)
    for axes in grid[:, 0]:
        axes.set_ylabel(y_label)
    figure.tight_layout(rect=(0, FOOT / height, 1, 1))
    for axes, (_, lines) in zip(grid.flat, panels):
        name_lines(axes, lines)
    return figure


def draw_bars(axes, groups):
    """For each group a bar a program, with its name and rate at its end."""
    thickness = 1 / (max(map(len, groups.values())) + 0.8)
    for k, bars in enumerate(groups.values()):
        for j, (program, rate) in enumerate(bars.items()):
            look, height = LOOKS[program], k + (j - (len(bars) - 1) / 2) * thickness
            axes.barh(height, rate, 0.88 * thickness, color=look.colour)
            place = {"xytext": (3, 0), "textcoords": "offset points", "va": "center", "fontsize": 7.5}
            axes.annotate(f"{look.name} {rate:.0f}", (rate, height), color=look.colour, **place)
    axes.set_yticks(range(len(groups)), groups)
    axes.tick_params(axis="y", length=0)
    axes.grid(True, axis="x", color="#DDDDDD", linewidth=0.6)


def bar_picture(panels, x_label):
    """Panels side by side, each of a title and groups of bars, with the same axes."""
    height = 4.4 + FOOT
    figure, row = pyplot.subplots(1, len(panels), sharex=True, sharey=True, squeeze=False, figsize=(9.2, height))
    for axes, (title, groups) in zip(row.flat, panels):
        axes.set(title=title, xlabel=x_label)
        draw_bars(axes, groups)
    row[0][0].invert_yaxis()
    row[0][0].margins(x=0.22)
    figure.tight_layout(rect=(0, FOOT / height, 1, 1))
    return figure


def side(threads):
    return "a thread for each end" if threads else "one thread"


def topologies(records, threads, programs=tuple(LOOKS)):
    """The four shapes with 1024 slots and one producer, a panel for each length of a claim."""
    panels = {}
    for rate in sorted(rates(records), key=lambda rate: list(LOOKS).index(rate.program)):
        if rate.threads == threads and rate.size == 1024 and rate.producers == 1 and rate.program in programs:
            groups = panels.setdefault(rate.claim, {shape: {} for shape in SHAPES})
            groups[rate.shape][rate.program] = rate.rate
    titled = [(f"{side(threads)}, claims of {claim}", panels[claim]) for claim in sorted(panels)]
    return bar_picture(titled, f"{RATE}, {SLOTS}")


def growth(records, shapes, what, x_label, x_ticks):
    """For each shape a panel on one thread and one on threads, over what grows."""
    found = rates(records)
    panels = []
    for shape, title in shapes.items():
        for threads in (False, True):
            here = [rate for rate in found if (rate.shape, rate.threads) == (shape, threads)]
            lines = lines_of((rate.program, getattr(rate, what), rate.rate) for rate in here)
            panels.append((f"{title}, {side(threads)}", lines))
    return line_picture(panels, x_label, x_ticks, RATE)


def sizes(records):
    shapes = {"unicast": "unicast", "diamond": "diamond"}
    return growth(records, shapes, "size", "slots, claims of one", [16**k for k in range(5)])


def handlers(records):
    shapes = {"chain": "one after another", "side": "side by side"}
    return growth(records, shapes, "handlers", f"handlers, {SLOTS}, claims of one", [1, 2, 4, 8, 16])


def claims(records):
    return growth(records, {"unicast": "unicast"}, "claim", f"events a claim, {SLOTS}", [1, 10, 100, 1000])


def producers(records):
    """A panel for claims of one and one for claims of ten, over the producers side by side."""
    found = rates(records)
    panels = []
    for claim in (1, 10):
        here = [rate for rate in found if rate.claim == claim]
        panels.append((f"claims of {claim}", lines_of((rate.program, rate.producers, rate.rate) for rate in here)))
    return line_picture(panels, f"producers, {SLOTS}", [1, 2, 4, 8, 16], RATE)


def languages(records):
    programs = ("memory", "c-slots", "cpp-slots", "rust-slots", "java-slots", "java-lmax", "crossbeam")
    return topologies(records, True, programs)


def by_bytes(records):
    """A panel for claims of one and one for claims of ten, with one sender and with three, over the bytes of an event."""
    panels = []
    for senders, name in ((1, "one sender"), (3, "three senders")):
        for claim in (1, 10):
            here = [rate for rate in rates(records) if (rate.producers, rate.claim) == (senders, claim)]
            lines = lines_of((rate.program, rate.bytes, rate.rate) for rate in here)
            panels.append((f"{name}, claims of {claim}", lines))
    return line_picture(panels, f"bytes of an event, {SLOTS}", [4**k for k in range(2, 7)], RATE)


def answers(records):
    """Operations a second, and microseconds to half of the answers, over the operations in flight."""
    panels = []
    for column, title in (("operations_a_second", "operations a second"), ("50%", "half of the answers: microseconds")):
        points = ((record["program"], int(record["in_flight"]), max(float(record[column]), 1)) for record in records)
        panels.append((title, lines_of(points)))
    return line_picture(panels, "operations in flight", [1, 8, 64, 1024], "")


def latency(records):
    """What most events take at most, a panel for each gap between two events."""
    columns = {"50%": "1 of 2", "99%": "99 of 100"}
    panels = {}
    for record in sorted(records, key=lambda record: [*LOOKS, record["program"]].index(record["program"])):
        if record["program"] in LOOKS:
            groups = panels.setdefault(int(record["gap_micros"]), {name: {} for name in columns.values()})
            for column, name in columns.items():
                groups[name][record["program"]] = float(record[column])
    figure = bar_picture([(f"an event each {gap} µs", panels[gap]) for gap in sorted(panels)], "beside the bars: nanoseconds")
    for axes in figure.axes:
        axes.set_xscale("log")
        axes.set_xlim(100, 1e12)
        axes.set_xticks([1e3, 1e6], ["1 µs", "1 ms"])
    return figure


def lengths(records):
    """Seconds by a file's records, a panel for each tool."""
    panels = []
    for tool in ("drive", "replay"):
        here = [record for record in records if record["tool"] == tool and record["size"] == "1024"]
        points = ((record["program"], int(record["records"]), float(record["seconds"])) for record in here)
        panels.append((tool, lines_of(points)))
    ticks = ticks_over((x for _, lines in panels for x, _ in chain(*lines.values())), (1,))
    return line_picture(panels, f"records of the file, {SLOTS}", ticks, "processor seconds")


# Of each file of records what is drawn.
PICTURES = {
    "table": {
        "topologies_one_thread": lambda records: topologies(records, False),
        "topologies_threads": lambda records: topologies(records, True),
    },
    "sizes": {"sizes": sizes},
    "handlers": {"handlers": handlers},
    "claims": {"claims": claims},
    "senders": {"senders": producers},
    "producers": {"producers": producers},
    "languages": {"languages": languages},
    "bytes": {"bytes": by_bytes},
    "answers": {"answers": answers},
    "latency": {"latency": latency},
    "lengths": {"lengths": lengths},
}


def save(figure, head, path):
    """Writes a picture that says itself where and when its records were measured."""
    words = f"{head['machine']}, load {head['load']}; {head['manner']}; {head['date']}"
    figure.text(0.01, 0.12 / figure.get_figheight(), words, fontsize=7.5, color="#555555")
    figure.savefig(path, metadata={"Date": None, "Creator": None})
    pyplot.close(figure)
    print(os.path.relpath(path))


def main():
    parser = argparse.ArgumentParser(description=__doc__, formatter_class=argparse.RawDescriptionHelpFormatter)
    parser.add_argument("--measured", default=os.path.join(TOP, "bench", "measured"))
    parser.add_argument("--pictures", default=os.path.join(TOP, "docs", "pictures"))
    given = parser.parse_args()
    matplotlib.rcParams.update(STYLE)
    os.makedirs(given.pictures, exist_ok=True)
    for name, drawn in PICTURES.items():
        path = os.path.join(given.measured, f"{name}.csv")
        if os.path.exists(path):
            head, records = read(path)
            for picture, draw in drawn.items():
                save(draw(records), head, os.path.join(given.pictures, f"{picture}.svg"))


if __name__ == "__main__":
    main()
