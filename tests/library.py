#!/usr/bin/env python3
"""Builds the library for other languages over the libraries that an `rt ci` left, since it keeps no static one, and tries it.

    tests/library.py [--anew] PROGRAM

It builds `libdisruptor.a` and `.so` in a room of its own, and then runs a program in each language (`other_languages.sh`), and
random calls from C beside PROGRAM's replies (`over_c.py`). The crate's archive is kept on this machine (`kept.py`), by a sum of the
libraries below, the crate's sources and the kit; `--anew` builds it all the same. Where there is no C compiler this says so, and does
nothing.
"""

import argparse
import os
import shutil
import subprocess
import sys

TOP = os.path.dirname(os.path.dirname(os.path.abspath(__file__)))
sys.dont_write_bytecode = True
sys.path[:0] = [f"{TOP}/tools", f"{TOP}/tests"]
import kept  # noqa: E402
import prove  # noqa: E402
import together  # noqa: E402
from libraries import Libraries  # noqa: E402
from scripts import amiss  # noqa: E402

NAME = "dr_c"


def taken(room):
    """Brings what the crate's archive is built of into a folder of the room, and returns the libraries there."""
    os.makedirs(f"{room}/reads/libraries")
    libraries = Libraries(TOP, f"{room}/reads/libraries")
    for it in libraries.below[NAME]:
        libraries.take(it)
    for it in prove.SOURCES:
        shutil.copytree(f"{TOP}/crates/{NAME}/{it}", f"{room}/reads/{NAME}/{it}")
    return libraries


def built(libraries, room):
    """Proves and compiles the crate over the libraries in the room, and returns its archive, or None where that failed."""
    shutil.copytree(f"{room}/reads/{NAME}", f"{room}/{NAME}")
    words = [*libraries.words(NAME, "build"), "--crate-type", "staticlib", "--toolchain", f"{libraries.kit}/toolchain"]
    status, said = together.said_by([*words, "-o", f"{room}/built.a"], f"{room}/{NAME}")
    if status:
        print(f"FAILED: {NAME} is not built:\n{said[-3000:]}")
    return None if status else kept.text_of(f"{room}/built.a")


def archive(room, is_anew):
    """Returns the path of the crate's archive, kept or built, or None where it is not built."""
    libraries = taken(room)
    reads = kept.kit(TOP), libraries.uses[NAME], libraries.below[NAME]
    archives = kept.Archives(kept.folder_of(libraries.kit, "archives"), reads, kept.scripts(), is_anew)
    found, is_kept = archives.of(f"{room}/reads", lambda: built(libraries, room))
    if found is None:
        return None
    print(f"the archive of {NAME} {'is kept from an earlier run of the same files' if is_kept else 'was built'}")
    with open(f"{room}/lib{NAME}.a", "wb") as it:
        it.write(found)
    return f"{room}/lib{NAME}.a"


def passes(words):
    """Runs a test, shows what it says, and returns whether it passed and tried something."""
    ran = together.run(words, stdout=subprocess.PIPE, stderr=subprocess.STDOUT)
    said = ran.stdout.decode(errors="replace").rstrip("\n")
    why = None if ran.returncode else amiss(said)
    print(said if not why else f"{said}\nFAILED: {os.path.basename(words[0])}: {why}", flush=True)
    return not ran.returncode and not why


def main():
    parser = argparse.ArgumentParser(description=__doc__, formatter_class=argparse.RawDescriptionHelpFormatter)
    parser.add_argument("--anew", action="store_true", help="build the archive also where it is kept")
    parser.add_argument("program")
    asked = parser.parse_args()
    compiler = os.environ.get("CC", "cc")
    if not shutil.which(compiler):
        print(f"not here, and skipped: the library for other languages, without {compiler}")
        return 0
    with together.folder("library-") as room:
        made = archive(room, asked.anew)
        if not made or together.run([f"{TOP}/tools/library.sh", f"{room}/out", "/usr/local", made]).returncode:
            return 1
        tests = (
            [f"{TOP}/tests/other_languages.sh", f"{room}/out"],
            [f"{TOP}/tests/over_c.py", os.path.abspath(asked.program), f"{room}/out/libdisruptor.so"],
        )
        return 0 if all([passes(it) for it in tests]) else 1


if __name__ == "__main__":
    sys.exit(main())
