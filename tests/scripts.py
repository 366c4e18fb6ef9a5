#!/usr/bin/env python3
"""Runs the scripts that look from outside at the programs that `rt ci` left, side by side, and shows what each says once it has ended.

  tests/scripts.py [--anew]           all
  tests/scripts.py --busy [--anew]    those that may run beside other work
  tests/scripts.py --quiet            those that go by time, one by one, with nothing beside them

A script passes where its last line says that it tried something, and that nothing failed, or that what it needs is not here. The last
line is `0 passed, N failed`: so many scripts failed, each once a build. With `--anew` they keep nothing of earlier runs.
"""

import os
import re
import subprocess
import sys
import time
from concurrent.futures import ThreadPoolExecutor, as_completed
from itertools import chain

TOP = os.path.dirname(os.path.dirname(os.path.abspath(__file__)))
BUILDS = ("", ".by-rattle")
PROGRAMS = ("disruptor", "disruptor_hostile", "disruptor_waits", "disruptor_bench", "example_durable")
# What each build is tried with, by the names of programs, the longest first; and what waits for quiet.
EACH = (
    "tests/hostile/refused.py disruptor disruptor_hostile",
    "tests/hostile/run.py disruptor",
    "tests/rows.py disruptor",
    "tests/states.py disruptor",
    "tests/show.py disruptor",
    "tests/checks.py disruptor",
    "tests/program.sh disruptor",
    "tests/examples.py disruptor",
    "tests/words.py disruptor",
    "tests/ledger/runs.py disruptor",
    "tests/ledger/kill.py disruptor",
    "tests/ledger/cuts.py disruptor",
    "tests/ledger/memory.py disruptor",
    "tests/durable.py example_durable",
)
QUIET = ("tests/progress.py disruptor", "tests/opening.py disruptor", "tests/waits.py disruptor_waits disruptor")
# What LLVM's build alone is tried with, and the tests of scripts, which need none.
ONCE = (
    "tests/library.py disruptor",
    "tests/instructions.py disruptor_bench disruptor",
    "tests/hostile/leaks.py disruptor_hostile",
)
OF_SCRIPTS = ("tests/wrong_bodies_test.py", "tests/scripts_test.py", "tests/show_test.py")
# What keeps something from run to run.
KEEPS = ("tests/library.py",)
# How the last line of a script ends, and how that of one begins which tried nothing, since it cannot.
COUNT = re.compile(r"(?:^|[: ])(\d+) [^:]*, 0 failed$")
SKIPPED = "not here, and skipped: "


def words_of(line, build, is_anew=False):
    script, *programs = line.split()
    return [script, *["--anew"] * (is_anew and script in KEEPS), *(f"crates/{it}/out/{it}{build}" for it in programs)]


def lacking(build):
    """Returns the programs of which there is no such build."""
    return [it for it in PROGRAMS if not os.path.isfile(f"{TOP}/crates/{it}/out/{it}{build}")]


def built():
    """Returns the builds that there are, and how many there should be and are not. Where Rattle's own compiler compiles no program,
    `rt ci` runs LLVM's alone."""
    found, failed = [], 0
    for build in BUILDS:
        lost = lacking(build)
        if not lost:
            found.append(build)
        elif build and len(lost) == len(PROGRAMS):
            print(f"{SKIPPED}the scripts over Rattle's own builds")
        else:
            failed += 1
            print(f"FAILED: rt ci left no {' and no '.join(it + build for it in lost)}")
    return found, failed


def amiss(said):
    """Returns why what a script said does not show that it passed, or None."""
    last = said.rstrip("\n").rpartition("\n")[2]
    count = COUNT.search(last)
    if not count and not last.startswith(SKIPPED):
        return "its last line tells no count of which 0 failed"
    return "it tried nothing" if count and not int(count[1]) else None


def run(words):
    """Runs a script, and returns whether it failed, and what it said."""
    began = time.time()
    ran = subprocess.run(words, cwd=TOP, stdin=subprocess.DEVNULL, stdout=subprocess.PIPE, stderr=subprocess.STDOUT, check=False)
    said = ran.stdout.decode(errors="replace").rstrip("\n")
    why = f"status {ran.returncode}" if ran.returncode else amiss(said)
    return bool(why), f"{said}\n{f'FAILED: {why}: ' if why else ''}{' '.join(words)}: {time.time() - began:.0f} s"


def ran(words):
    """Runs scripts, as many at once as there are processors, and gives each with its end."""
    with ThreadPoolExecutor(len(os.sched_getaffinity(0))) as pool:
        for it in as_completed([pool.submit(run, it) for it in words]):
            yield it.result()


def main():
    is_anew, is_quiet = "--anew" in sys.argv[1:], "--quiet" in sys.argv[1:]
    builds, failed = built()
    once = [words_of(it, "", is_anew) for it in (*(ONCE if "" in builds else ()), *OF_SCRIPTS)]
    each = [words_of(it, build) for it in EACH for build in builds]
    quiet = [words_of(it, build) for build in builds for it in QUIET]
    # (a build that is not there fails once, with those that may be busy)
    busy, failed = ([], 0) if is_quiet else ([*once, *each], failed)
    for has_failed, said in chain(ran(busy), map(run, [] if "--busy" in sys.argv[1:] else quiet)):
        failed += has_failed
        print(said, flush=True)
    print(f"0 passed, {failed} failed")
    return 1 if failed else 0


if __name__ == "__main__":
    sys.exit(main())
