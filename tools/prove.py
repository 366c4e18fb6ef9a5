#!/usr/bin/env python3
"""Proves crates and all that they stand on, those that do not stand on each other side by side, over what earlier runs kept.

  tools/prove.py [--log FILE] CRATE..                    libraries are proved and built
  tools/prove.py [--log FILE] [--try] PROGRAM -- WORD..  a program too, by a run with these words; with --try it also
                                                         runs before any proof, beside the first ones, and is shown

`rt` keeps two commands out of a crate's folder, and of those below it, at the same time. So each crate is proved in a
copy of its own, made of links, whose folder `out` then takes the place of the crate's. All that `rt` says goes to the log.
At the first crate that is not proved this shows what went wrong there, and stops.
"""

import argparse
import os
import re
import shutil
import sys
import threading
import time
from concurrent.futures import FIRST_COMPLETED, ThreadPoolExecutor, wait

TOP = os.path.dirname(os.path.dirname(os.path.abspath(__file__)))
sys.path.insert(0, f"{TOP}/tools")
import together  # noqa: E402

SOURCES = ("src", "specs", "proofs")
# What rt says of each thing that it proved or read, which nobody wants to see where something failed.
QUIET = re.compile(r": proved$|^checked |^(library|statements|crate|logic|axioms|by-macro:) |^rt: ")
# A check may take as much memory, in kB, and one of its jobs as much.
MEMORY = 4_000_000
JOB_MEMORY = 2_000_000


def uses_of(top):
    """Returns each crate of crates.txt with the libraries that its line names."""
    lines = [re.match(r"([a-z]\w*)[^:]*:(.*)", it) for it in open(f"{top}/crates.txt", encoding="utf-8")]
    return {it[1]: it[2].split() for it in lines if it}


def crates_of(top):
    """Returns each crate of crates.txt with the crates of the repository below it, the lowest first."""
    uses = uses_of(top)

    def below(name):
        found = []
        for it in (it for it in uses[name] if it in uses):
            found += [one for one in [*below(it), it] if one not in found]
        return found

    return {name: below(name) for name in uses}


def memory():
    """Returns how much memory is free, in kB."""
    return int(re.search(r"MemAvailable:\s+(\d+)", open("/proc/meminfo").read())[1])


def is_program(top, name):
    return os.path.isfile(f"{top}/crates/{name}/src/main.rt")


def processors():
    return len(os.sched_getaffinity(0))


def lanes():
    """Returns how many checks fit side by side, by processors and memory."""
    return max(min(processors(), memory() // MEMORY), 1)


def link(one, other):
    """Gives a file a second name. `rt` replaces what it proved, and writes into none of it; its other files are copied."""
    if one.endswith(".oantt") or "/out/rlib/" in one:
        try:
            return os.link(one, other)
        except OSError:
            pass
    return shutil.copy2(one, other)


def copy_of(top, room, names, below):
    """Makes a copy of the sources, with what is kept of the named crates, and the libraries below them as they are built."""
    for it in ("crates.txt", "HANDLES"):
        shutil.copy2(f"{top}/{it}", room)
    for it in os.listdir(f"{top}/crates"):
        kept = ["out"] if it in names else ["out/rlib"] * (it in below)
        for part in [*SOURCES, *kept]:
            if os.path.isdir(f"{top}/crates/{it}/{part}"):
                shutil.copytree(f"{top}/crates/{it}/{part}", f"{room}/crates/{it}/{part}", copy_function=link)


def prove(top, name, below, jobs, priority, words):
    """Proves one crate in a copy, puts what it left in its place, and returns the status and what `rt` said."""
    with together.folder("prove-") as room:
        copy_of(top, room, [name], below)
        folder = f"{room}/crates/{name}"
        call = ["nice", "-n", str(priority), "rt", *words[:1], "--jobs", str(jobs), *words[1:]]
        status, said = together.said_by(call, folder)
        if os.path.isdir(f"{folder}/out"):
            shutil.rmtree(f"{top}/crates/{name}/out", ignore_errors=True)
            shutil.move(f"{folder}/out", f"{top}/crates/{name}/out")
    return status, said


def show(top, name, words, told):
    """Runs a program before any proof, in a copy of its own, and tells what it prints. A failure ends all proofs too."""
    try:
        with together.folder("try-") as room:
            copy_of(top, room, [], [])
            ran = together.run(["rt", "try", "--", *words], cwd=f"{room}/crates/{name}", capture_output=True, text=True)
        why = f"{ran.stdout}{ran.stderr}" if ran.returncode else None
    except OSError as error:
        why = str(error)
    if why is not None:
        told(f"{name}: FAILED before any proof\n{why}")
        os._exit(1)
    line = " ".join(it.removeprefix(f"{top}/") for it in words)
    told(f"\n$ ./{name} {line}\n{ran.stdout}\nSo the program runs, but it is not proved yet: the proofs go on.\n")


def size_of(top, name):
    """Returns about how long a crate's proof takes, beside those of others: by its lines."""
    found = 500
    for part in SOURCES:
        for at, _, names in os.walk(f"{top}/crates/{name}/{part}"):
            found += sum(open(f"{at}/{it}", "rb").read().count(b"\n") * (2 if it.endswith(".rt") else 1) for it in names)
    return found


class Work:
    """What is to be proved, and how far it came."""

    def __init__(self, top, names):
        self.top, self.below = top, crates_of(top)
        self.all = [it for it in self.below if it in names or any(it in self.below[one] for one in names)]
        self.left, self.done, self.began = list(self.all), {}, time.time()
        self.size = {it: size_of(top, it) for it in self.all}
        self.path = {}
        for it in reversed(self.all):
            self.path[it] = self.size[it] + self.above(it)

    def above(self, name):
        """Returns the size of the longest chain of crates that stand on this one."""
        return max([self.path[it] for it in self.path if name in self.below[it]], default=0)

    def ready(self):
        """Returns the crates that can begin now, that with the longest chain first."""
        found = [it for it in self.left if all(one in self.done for one in self.below[it])]
        return sorted(found, key=lambda it: -self.path[it])

    def is_longest(self, name):
        """Whether no crate that is not done begins a longer chain: the whole takes as long as this one."""
        return all(self.path[it] <= self.path[name] for it in self.all if it not in self.done)

    def minutes_left(self):
        """Returns about how long the rest takes, at the speed of what is done."""
        done = sum(self.size[it] for it in self.done)
        whole = sum(self.size.values())
        return (time.time() - self.began) / 60 * (whole - done) / max(done, 1)


def prove_all(top, names, words=lambda name: ["lib"], told=print, log=None):
    """Proves the crates and those below them, and returns what `rt` said of the first that was not proved, or None."""
    work, most, running = Work(top, names), lanes(), {}
    together.begun()
    with ThreadPoolExecutor(2 * most) as pool:
        while work.left or running:
            for name in work.ready():
                # The longest chain has every processor, and first; others have what it leaves.
                is_longest = work.is_longest(name)
                used = sum(jobs for _, jobs, _ in running.values())
                idle = min(2 * most, memory() // JOB_MEMORY + used) - used
                jobs = min(most if is_longest else max(most // 2, 1), idle)
                if jobs < 1 and running:
                    break
                work.left.remove(name)
                run = pool.submit(prove, top, name, work.below[name], max(jobs, 1), 0 if is_longest else 5, words(name))
                running[run] = name, jobs, time.time()
            for it in wait(running, return_when=FIRST_COMPLETED).done:
                name, _, began = running.pop(it)
                status, said = it.result()
                if log:
                    log.write(f"== {name}\n{said}")
                    log.flush()
                if status:
                    told(f"{name}: FAILED after {time.time() - began:.0f} s")
                    return said
                work.done[name] = time.time() - began
                rest = f"; about {work.minutes_left():.0f} minutes more" if work.left or running else ""
                told(f"{len(work.done):2} of {len(work.all)}  {name:16} proved, {work.done[name]:3.0f} s{rest}")
    return None


def main():
    given = sys.argv[1:]
    cut = given.index("--") if "--" in given else len(given)
    parser = argparse.ArgumentParser(description=__doc__, formatter_class=argparse.RawDescriptionHelpFormatter)
    parser.add_argument("--log", default=os.devnull)
    parser.add_argument("--try", dest="is_tried", action="store_true")
    parser.add_argument("crates", nargs="+", metavar="CRATE")
    asked = parser.parse_args(given[:cut])
    unknown = [it for it in asked.crates if it not in crates_of(TOP)]
    if unknown:
        parser.error(f"crates.txt has no crate {unknown[0]}")

    def words(name):
        return ["run", "--", *given[cut + 1 :]] if is_program(TOP, name) else ["lib"]

    def told(text):
        print(text, flush=True)

    first = threading.Thread(target=show, args=(TOP, asked.crates[0], given[cut + 1 :], told), daemon=True)
    together.begun()
    if asked.is_tried:
        first.start()
    with open(asked.log, "w", encoding="utf-8") as log:
        said = prove_all(TOP, asked.crates, words, told, log)
    if said is not None:
        shown = [it for it in said.splitlines() if not QUIET.search(it)]
        print(*shown[:30], f"all that rt said stands in {asked.log}", sep="\n")
        sys.exit(1)
    if asked.is_tried:
        first.join()


if __name__ == "__main__":
    main()
