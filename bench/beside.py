#!/usr/bin/env python3
"""Tables of the exchanges beside rings of others, and as the work grows; events a second, in millions.

    bench/beside.py table              each topology at sizes 64, 1024 and 65,536: ours, then the others
    bench/beside.py memory             the rings with one sender, ours, by hand and LMAX's, by longer claims
    bench/beside.py sizes              ring sizes from 1 to 65,536
    bench/beside.py handlers           1 to 16 handlers, in a chain and side by side
    bench/beside.py claims             claims of 1 to 1000 events
    bench/beside.py widths             events of 1, 2, 8 and 16 words, on one thread and through plain memory
    bench/beside.py producers          1 to 16 producers behind a lock
    bench/beside.py senders            1 to 16 senders of one ring; three of them are LMAX's `sequencer`
    bench/beside.py languages          the rings from other languages beside ours, channels and LMAX, with `--library`
    bench/beside.py bytes              events of 16 to 4096 bytes in rings of slots, beside LMAX's, with `--library`
    bench/beside.py runs               runs in one call beside the same ring by hand, and LMAX's DSL beside its ring
    bench/beside.py few                two topologies on threads, for fewer processors than ends (`taskset`)

The others are the rings of bench/plain/exchanges, which `rustc` builds, and LMAX's own, where `javac` and
the library are there (Debian's package libdisruptor-java; `--lmax JAR` names another place): `lmax` claims
by `next`, which parks where there is no room, `lmax-try` by `tryNext`, again and again, and `lmax-dsl` by
`next` in an exchange that LMAX's DSL puts together. On threads
`ours` is the ring over words, which has one sender, `memory` those over plain memory, `run` a run in one call, `c` the rings of words
and of several senders from C, and `c-slots`, `cpp-slots` and so on those of slots by each language's package
(bench/slots), where `--library FOLDER` names what `make lib` left; `java-lmax` is LMAX's by `next` in the program of `java-slots`
(bench/java). `channel` is the standard library's, which is crossbeam's; `crossbeam` is that of Debian's librust-crossbeam-channel-dev.
All run in turns, `--turns N` times (three without it), each for `--rounds N` rounds of `--seconds S`,
of which the one in the middle counts; the best of a program's turns is taken. `--under WORDS` starts each run by these words, as
'chrt -r 10' (other work on the machine then counts for less) or 'taskset -c 0,1'. `--record FILE` also
writes the rates to a file, as those of bench/measured, which bench/plots.py draws.
"""

import argparse
import os
import shutil
import subprocess
import sys
import tempfile

import packages
from exchanges import PROGRAM, TOP
from records import RATES, Records

PLAIN = os.path.join(TOP, "bench", "plain", "exchanges", "main.rs")
LMAX = os.path.join(TOP, "bench", "lmax", "Lmax.java")
SHAPES = ("unicast", "pipeline", "multicast", "diamond")
PACES = ("", "-b10", "-b100")
SIZES = (64, 1024, 65536)
ONE_THREAD = ("ours", "ring", "deque", "lmax")
THREADS = ("ours", "memory", "c", "c-slots", "words", "slots", "channel", "mutex", "lmax", "lmax-try")


class Programs:
    """How each program is started."""

    def __init__(self, given, folder):
        self.given = given
        rounds = f"{given.rounds} rounds of {given.seconds} seconds"
        manner = f"{given.under}, {rounds}, the best of {given.turns} turns".removeprefix(", ")
        self.records = Records(given.record, RATES, manner)
        self.words = dict.fromkeys(("ours", "memory", "run"), [given.program])
        plain = os.path.join(folder, "exchanges")
        subprocess.run(["rustc", "--edition", "2021", "-O", "-o", plain, PLAIN], check=True)
        for kind in ("ring", "deque", "words", "slots", "channel", "mutex"):
            self.words[kind] = [plain, kind]
        if given.what == "languages" and (crossbeam := packages.of_crossbeam(folder, PLAIN)):
            self.words["crossbeam"] = [crossbeam, "channel"]
        if given.library:
            self.words |= self.of_packages(folder, os.path.abspath(given.library))
        if shutil.which("javac") and os.path.exists(given.lmax):
            subprocess.run(["javac", "-cp", given.lmax, "-sourcepath", os.path.dirname(LMAX), "-d", folder, LMAX], check=True)
            java = ["java", "-cp", f"{given.lmax}{os.pathsep}{folder}", "Lmax"]
            self.words |= {"lmax": [*java, "next"], "lmax-try": [*java, "try"], "lmax-dsl": [*java, "dsl"]}

    def of_packages(self, folder, library):
        """How the programs over a folder of `make lib` are started."""
        found = packages.of_c(folder, library)
        if rust := packages.of_rust(folder, library):
            found["rust-slots"] = [os.path.join(rust, "rates")]
        java, libraries = packages.of_java(folder, self.given.lmax, library)
        found |= {f"java-{it}": [*java, "Rates", it] for it in libraries}
        return found | {"python-slots": packages.of_python(library)}

    def of(self, kinds):
        return [kind for kind in kinds if kind in self.words]

    def rate(self, kind, topology, size):
        """Millions of events a second, or None where it takes too long."""
        words = self.given.under.split() + self.words[kind]
        name = {"memory": f"plain{'' if topology[0].isdigit() else '-'}{topology}", "run": f"run-{topology}"}.get(kind, topology)
        words += [name, str(size), str(self.given.seconds), str(self.given.rounds)]
        try:
            ran = subprocess.run(words, stdout=subprocess.PIPE, text=True, timeout=self.given.patience)
        except subprocess.TimeoutExpired:
            return None
        if ran.returncode != 0:
            sys.exit(f"{' '.join(words)} ended with {ran.returncode}")
        return int(ran.stdout.split()[-1]) / 1e6

    def rates(self, kinds, topology, size):
        """The best of the turns of each program, which are taken one after another, up to one that takes too long."""
        turns = {kind: [] for kind in kinds}
        for _ in range(self.given.turns):
            for kind in kinds:
                if None not in turns[kind]:
                    turns[kind].append(self.rate(kind, topology, size))
        best = {kind: max(filter(None, rates), default=None) for kind, rates in turns.items()}
        for kind, rate in best.items():
            if rate is not None:
                self.records.add(topology, size, kind, f"{rate:.2f}")
        return list(best.values())


def shown(rate):
    return "more time than it had" if rate is None else f"{rate:.2f}"


def print_head(words):
    print(f"| {' | '.join(words)} |\n|{'---|' * len(words)}", flush=True)


def print_row(name, programs, kinds, topology, size):
    rates = programs.rates(kinds, topology, size)
    print(f"| {name} | {' | '.join(shown(rate) for rate in rates)} |", flush=True)


def table(programs):
    for prefix, kinds in (("core-", ONE_THREAD), ("", THREADS)):
        kinds = programs.of(kinds)
        print_head(["topology", "size"] + kinds)
        for topology in (f"{prefix}{shape}{pace}" for shape in SHAPES for pace in ("", "-b10")):
            for size in SIZES:
                print_row(f"{topology} | {size}", programs, kinds, topology, size)


def memory(programs):
    """The rings with one sender, at claims of one, ten and a hundred."""
    kinds = programs.of(("ours", "memory", "words", "slots", "lmax", "lmax-try"))
    print_head(["topology"] + kinds)
    for topology in (f"{shape}{pace}" for pace in PACES for shape in SHAPES):
        print_row(topology, programs, kinds, topology, 1024)


def grow(programs, word, steps):
    """A row a step, which is what it is called, a topology and a size."""
    for prefix, kinds in (("core-", ONE_THREAD), ("", THREADS)):
        kinds = [kind for kind in programs.of(kinds) if kind not in ("c", "c-slots") and not kind.startswith("lmax")]
        print_head([word] + kinds)
        for name, topology, size in steps:
            print_row(name, programs, kinds, prefix + topology, size)


def widths(programs):
    """The core of large and small events beside the plain ring of them, and the ring over plain memory."""
    for prefix, kinds in (("core", ("ours", "ring")), ("", ("memory",))):
        print_head(["words an event", "size", *kinds])
        for pace in ("", "-b10"):
            for words, width in ((1, "1-"), (2, "-" if prefix else ""), (8, "8-"), (16, "16-")):
                for size in SIZES:
                    print_row(f"{words}{pace} | {size}", programs, kinds, f"{prefix}{width}unicast{pace}", size)


def producers(programs):
    """The exchange by lock beside the ring behind a mutex."""
    print_head(["producers", "events a claim", "ours", "mutex"])
    for count in (1, 2, 4, 8, 16):
        for claim in (1, 10, 100):
            print_row(f"{count} | {claim}", programs, ("ours", "mutex"), f"lock{count}-unicast-b{claim}", 1024)


def senders(programs):
    """The ring with several senders beside plain words, and LMAX's with several producers."""
    kinds = programs.of(("memory", "c", "c-slots", "words", "channel", "lmax", "lmax-try"))
    print_head(["senders", "events a claim"] + kinds)
    for count in (1, 2, 3, 4, 8, 16):
        for claim in (1, 10, 100):
            print_row(f"{count} | {claim}", programs, kinds, f"senders{count}-unicast-b{claim}", 1024)


def languages(programs):
    """What the ring gives to other languages, beside what other programs have."""
    slots = [f"{it}-slots" for it in ("c", "cpp", "rust", "java")]
    kinds = ("memory", "c", *slots, "java-lmax", "python-slots", "channel", "crossbeam", "lmax-try")
    of_one = [f"{shape}{pace}" for shape in SHAPES for pace in PACES]
    of_three = [f"senders3-unicast{pace}" for pace in PACES]
    for kinds, topologies in ((("ours", *kinds), of_one), (kinds, of_three)):
        kinds = programs.of(kinds)
        print_head(["topology"] + kinds)
        for topology in topologies:
            print_row(topology, programs, kinds, topology, 1024)


def by_bytes(programs):
    """Events of so many bytes, all of which are written and read, with one sender and with three."""
    kinds = programs.of(("c-slots", "cpp-slots", "rust-slots", "java-slots", "java-lmax"))
    print_head(["topology"] + kinds)
    for topology in (f"{senders}unicast{pace}" for senders in ("", "senders3-") for pace in PACES):
        for count in (16, 64, 256, 1024, 4096):
            print_row(f"bytes{count}-{topology}", programs, kinds, f"bytes{count}-{topology}", 1024)


def runs(programs):
    """Runs in one call, at claims of one and ten."""
    kinds = programs.of(("run", "memory", "lmax-dsl", "lmax"))
    print_head(["topology"] + kinds)
    for topology in (f"{shape}{pace}" for shape in ("unicast", "multicast") for pace in ("", "-b10")):
        print_row(topology, programs, kinds, topology, 1024)


def few(programs):
    """Small and large rings, where threads may have to take turns at a processor."""
    kinds = programs.of(THREADS)
    print_head(["topology", "size"] + kinds)
    for topology in ("unicast", "diamond"):
        for size in (1, 64, 1024):
            print_row(f"{topology} | {size}", programs, kinds, topology, size)


def steps(what):
    if what == "sizes":
        return [(f"{shape}, {4**k}", shape, 4**k) for shape in ("unicast", "diamond") for k in range(9)]
    if what == "handlers":
        return [(f"{n} {way}", f"{way}{n}", 1024) for way in ("chain", "side") for n in (1, 2, 4, 8, 16)]
    return [(f"{n}", f"unicast-b{n}", 1024) for n in (1, 2, 5, 10, 20, 50, 100, 200, 500, 1000)]


# (the others grow by steps)
TABLES = {
    "table": table,
    "memory": memory,
    "widths": widths,
    "producers": producers,
    "senders": senders,
    "languages": languages,
    "bytes": by_bytes,
    "runs": runs,
    "few": few,
}


def main():
    parser = argparse.ArgumentParser(description=__doc__, formatter_class=argparse.RawDescriptionHelpFormatter)
    parser.add_argument("what", choices=[*TABLES, "sizes", "handlers", "claims"])
    parser.add_argument("--program", default=PROGRAM)
    parser.add_argument("--lmax", default="/usr/share/java/disruptor.jar")
    parser.add_argument("--library", metavar="FOLDER")
    parser.add_argument("--under", default="")
    parser.add_argument("--seconds", type=float, default=0.2, help="of a round")
    parser.add_argument("--rounds", type=int, default=5)
    parser.add_argument("--turns", type=int, default=3)
    parser.add_argument("--patience", type=float, default=60, help="seconds that a run has")
    parser.add_argument("--record", metavar="FILE")
    given = parser.parse_args()
    with tempfile.TemporaryDirectory() as folder:
        programs = Programs(given, folder)
        if given.what in TABLES:
            TABLES[given.what](programs)
        else:
            grow(programs, given.what, steps(given.what))
        programs.records.save()


if __name__ == "__main__":
    main()
