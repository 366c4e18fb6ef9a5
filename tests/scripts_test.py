#!/usr/bin/env python3
"""Tests of `scripts.py`, `hostile/leaks.py` and `steps_in_laws.sh`: which scripts pass, by what they say, which builds are tried, which cases
of calls, and which lines of a source, by what is said of them."""

import contextlib
import glob
import io
import os
import shutil
import subprocess
import sys

sys.dont_write_bytecode = True
HERE = os.path.dirname(os.path.abspath(__file__))
sys.path[:0] = [HERE, f"{HERE}/../tools", f"{HERE}/hostile"]
import leaks  # noqa: E402
import scripts  # noqa: E402
import together  # noqa: E402

# Scripts, and whether they fail.
SCRIPTS = {
    "echo 'a/disruptor: 12 cases, 0 failed'": False,
    "echo 'over C and by drive: 200 runs, 7 calls, 0 of them refused, 0 failed'": False,
    "echo one; echo 'not here, and skipped: leaks, without valgrind'": False,
    "echo 'a/disruptor: 12 cases, 0 failed'; exit 1": True,
    "echo 'a/disruptor: 12 cases, 0 failed' >&2; kill -9 $$": True,
    "echo 'a/disruptor: 12 cases, 1 failed'": True,
    "echo 'a/disruptor: 12 cases, 10 failed'": True,
    "echo 'a/disruptor: 0 cases, 0 failed'": True,
    "echo 'a/12 b/disruptor: 0 cases, 0 failed'": True,
    "echo 'over C and by drive: 0 runs, 7 calls, 0 failed'": True,
    "echo 'a/disruptor: 12 cases, 0 failed'; echo more": True,
    "echo 'a/disruptor: 12 cases'": True,
    "true": True,
}
# Calls of a case, with `$alone` where valgrind does not watch them, and whether they are whole.
CALLS = {
    "echo done": True,
    "true": False,
    "exit 3": False,
    "echo done; exit 3": False,
    "echo done$alone": False,
    "[ $alone ] && echo done; [ $alone ]": False,
    "echo done; [ $alone ]": False,
}
# What `rt ci` did not leave, and what is tried then, and how much of it fails.
LOST = {
    (): (["", ".by-rattle"], 0),
    tuple(f"{it}.by-rattle" for it in scripts.PROGRAMS): ([""], 0),
    ("disruptor_hostile.by-rattle",): ([""], 1),
    ("disruptor_waits",): ([".by-rattle"], 1),
}
# What `steps_in_laws.sh` says first of a source that may not be.
NO_STEP = "a load or store that is no step of the laws"
OUTSIDE = "steps outside a ring"
ORDERING = "an ordering that is not sequentially consistent"
MORE_THAN_LEAVES, NOT_SIX = "an end that is dropped does more", "of six ends that may be dropped"
OVER_WORDS, MORE_THAN_DROPPED = "an end over words, or one that C holds", "an end that is freed does more"
LEAVES = "        drop(ring.senders.leave(0, left));"
# Such sources: a line that comes last, or one in place of another, and what is said of it.
PLANTED = [
    ("dr_runs/src/words.rt", "    words.load::<Brand>(seat, word);", OUTSIDE),
    ("dr_cells/src/row.rt", "    let look = AtomicU64::load;", OUTSIDE),
    ("dr_lent/src/slots.rt", "    words.exchange(seat, slot, token);", OUTSIDE),
    ("dr_places/src/places.rt", "        shared.store::<Tells>(&mut seat, place, LEFT);", OUTSIDE),
    ("dr_places/src/places.rt", ("shared.store::<Tells>(&mut seat, place, LEFT);", ""), OUTSIDE),
    ("dr_disruptor/src/running.rt", "    ring.table.shared.fetch_add::<Brand>(seat, 0, 1);", OUTSIDE),
    ("dr_ring/src/sender.rt", "        self.words.load::<Brand>(&mut self.seat, 0);", NO_STEP),
    ("dr_ring/src/laws/sender.rt", "    fn untold() {\n        words.store::<Brand>(seat, 0, 1);", NO_STEP),
    ("dr_ring/src/laws/halter.rt", "    // HasLoaded\n    fn twice() { words.load(seat, 0); words.load(seat, 1); }", NO_STEP),
    ("dr_plain/src/laws/sender.rt", "    then = { Loads (λ found. found) }", NO_STEP),
    ("dr_plain/src/sender.rt", "        words.swap::<Brand>(&mut self.seat, 0, 1);", NO_STEP),
    ("dr_plain_senders/src/sender.rt", "    let one = words.fetch_max(seat, 0, 1);", NO_STEP),
    ("dr_plain_senders/src/polling.rt", "    settling::unite(words, seat, other);", NO_STEP),
    ("dr_workers/src/bell.rt", "        let seen = self.word.load(Ordering::Relaxed);", ORDERING),
    ("dr_workers/src/bell.rt", "    let both = (Ordering::SeqCst, Ordering::Relaxed);", ORDERING),
    ("dr_workers/src/bell.rt", "use std::sync::atomic::Ordering as Order;", ORDERING),
    ("dr_plain/src/sender.rt", (LEAVES, f"        ring.halt();\n{LEAVES}"), MORE_THAN_LEAVES),
    ("dr_plain/src/receiver.rt", ("Drop for Receiver<T>", "Drop for Received<T>"), NOT_SIX),
    ("dr_ring/src/receiver.rt", "impl Drop for Receiver {", OVER_WORDS),
    ("dr_c/src/end.rt", "impl Drop for End {", OVER_WORDS),
    ("dr_c/src/lib.rt", ("    opening::free_all(", "    calls::halt(alloc, &mut handles[0]);\n    opening::free_all("), MORE_THAN_DROPPED),
]


def built_without(room, lost):
    """Which builds are tried, and how many fail, where these programs are missing."""
    for it in scripts.PROGRAMS:
        out = f"{room}/crates/{it}/out"
        os.makedirs(out)
        for build in scripts.BUILDS:
            if it + build not in lost:
                open(f"{out}/{it}{build}", "w", encoding="utf-8").close()
    scripts.TOP = room
    with contextlib.redirect_stdout(io.StringIO()):
        return scripts.built()


def are_whole(room, calls):
    """Whether a case is whole whose calls a shell makes, watched by what stands here for valgrind."""
    for name, text in (("calls", calls), ("watch", 'alone= exec "$@"')):
        with open(f"{room}/{name}", "w", encoding="utf-8") as it:
            it.write(f"#!/bin/sh\n{text}\n")
        os.chmod(f"{room}/{name}", 0o700)
    leaks.VALGRIND, os.environ["alone"] = [f"{room}/watch"], "yes"
    with contextlib.redirect_stdout(io.StringIO()):
        return leaks.is_whole(f"{room}/calls", "case")


def said_of_laws(room):
    """What `steps_in_laws.sh` says first of the sources in a folder that do not pass, or nothing."""
    ran = subprocess.run([f"{room}/tests/steps_in_laws.sh"], stdout=subprocess.PIPE, text=True, check=False)
    return ran.stdout.partition("\n")[0] if ran.returncode else ""


def judged_by_laws(room):
    """The number of cases of sources, and those that are judged wrongly: of each but the first one line is not the crates'."""
    top = os.path.dirname(HERE)
    for it in ("crates.txt", "tests/steps_in_laws.sh", *glob.glob("crates/*/src", root_dir=top)):
        os.makedirs(os.path.dirname(f"{room}/{it}"), exist_ok=True)
        (shutil.copytree if os.path.isdir(f"{top}/{it}") else shutil.copy)(f"{top}/{it}", f"{room}/{it}")
    wrongly = ["none"] if said_of_laws(room) else []
    for file, change, said in PLANTED:
        with open(f"{room}/crates/{file}", encoding="utf-8") as it:
            text = it.read()
        changed = f"{text}{change}\n" if isinstance(change, str) else text.replace(*change)
        with open(f"{room}/crates/{file}", "w", encoding="utf-8") as it:
            it.write(changed)
        if changed == text or not said_of_laws(room).startswith(said):
            wrongly.append(f"{file}, {change}")
        with open(f"{room}/crates/{file}", "w", encoding="utf-8") as it:
            it.write(text)
    return 1 + len(PLANTED), wrongly


def main():
    failed = 0
    for script, fails in SCRIPTS.items():
        if scripts.run(["sh", "-c", script])[0] != fails:
            failed += 1
            print(f"FAILED: whether this script fails: {script}")
    with together.folder("leaks-") as room:
        for calls, holds in CALLS.items():
            if are_whole(room, calls) != holds:
                failed += 1
                print(f"FAILED: whether these calls are whole: {calls}")
    for lost, found in LOST.items():
        with together.folder("builds-") as room:
            if built_without(room, lost) != found:
                failed += 1
                print(f"FAILED: which builds are tried without {' '.join(lost) or 'nothing'}")
    for line, words in (("tests/library.py disruptor", ["tests/library.py", "--anew", "crates/disruptor/out/disruptor"]),
                        ("tests/rows.py disruptor", ["tests/rows.py", "crates/disruptor/out/disruptor"])):
        if scripts.words_of(line, "", is_anew=True) != words:
            failed += 1
            print(f"FAILED: how a run that does all anew calls {line}")
    with together.folder("laws-") as room:
        sources, wrongly = judged_by_laws(room)
    for file in wrongly:
        failed += 1
        print(f"FAILED: how steps_in_laws.sh judges {file}")
    print(f"scripts.py: {len(SCRIPTS) + len(CALLS) + len(LOST) + 2 + sources} cases, {failed} failed")
    return 1 if failed else 0


if __name__ == "__main__":
    sys.exit(main())
