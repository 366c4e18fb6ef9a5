#!/usr/bin/env python3
"""Compares what `check` says of files with what `drive` and `replay` do with them.

    tests/checks.py PROGRAM                   the files of rows/ and hostile/, and 300 random ones for each tool
    tests/checks.py PROGRAM --files 10000     as many random ones as asked

Its first line has to be the other tool's, its status too, and its count that of the records. The line that it names has
to be that of the record, by a reading of its own, and what it found there has to stand in the field that it names. The
tables of rows/check have all that it says. The script prints a line for each failure, and then a count; its status is 0
where none failed.
"""

import argparse
import glob
import os
import re
import sys
import tempfile

sys.dont_write_bytecode = True
HERE = os.path.dirname(os.path.abspath(__file__))
sys.path += [os.path.join(HERE, "hostile"), os.path.join(HERE, "second_reading")]
from random_files import random_file  # noqa: E402
from reading import FIELD, LINE_ENDS, MARK, records  # noqa: E402
from run import Bench, Ran, cases_of  # noqa: E402

TOOLS = ("drive", "replay")
LINE_END = re.compile(rb"\r\n|\r|\n")
TOLD = re.compile(rb'record (\d+): ([^\n]+)\nline (\d+), field (\d+): found (nothing|"[^\n]*"), expected ([^\n]+)(\nhint: [^\n]+)?\n')
AT_END = re.compile(rb"record (\d+): (no ring|no start)\nline (\d+): found the end of the file, expected [^\n]+\n")
# The most bytes of a field that are shown.
MOST_SHOWN = 40


def line_of(text, k):
    """The line in which record k begins, or the one after the last."""
    at = len(MARK) if text.startswith(MARK) else 0
    while True:
        begin = LINE_ENDS.match(text, at).end()
        if begin == len(text):
            return 1 + len(LINE_END.findall(text)) + (begin == at and at > 0 and text[at - 1 : at] not in b"\r\n")
        k -= 1
        if k == 0:
            return 1 + len(LINE_END.findall(text[:begin]))
        at = FIELD.match(text, begin).end()
        while text[at : at + 1] == b",":
            at = FIELD.match(text, at + 1).end()


def shown(field):
    """How a field is shown."""
    inner = "".join(chr(byte) if 32 <= byte < 127 else f"\\x{byte:02x}" for byte in field[:MOST_SHOWN])
    return f'"{inner}{".." if len(field) > MOST_SHOWN else ""}"'.encode()


def says_amiss(text, ran, other):
    """What is wrong with what `check` says of a text, with which the other tool did this; None where nothing is."""
    found = records(text)
    if other.status != 2:
        count = f"{len(found)} record{'' if len(found) == 1 else 's'}\n".encode()
        return None if ran == Ran(0, count, b"") else "the count"
    if (ran.status, ran.out) != (2, b"") or not ran.err.startswith(other.err):
        return "the fault"
    told, at_end = TOLD.fullmatch(ran.err), AT_END.fullmatch(ran.err)
    if not told and not at_end:
        return "the form"
    k, line = int((told or at_end)[1]), int((told or at_end)[3])
    if line != line_of(text, k):
        return f"the line, which is {line_of(text, k)}"
    if at_end:
        return None if k > len(found) else "the end"
    number, fields = int(told[4]), found[k - 1]
    stands = shown(fields[number - 1]) if number <= len(fields) else b"nothing"
    return None if 1 <= number <= len(fields) + 1 and told[5] == stands else "the field"


def compare(bench, tool, name, text):
    file = bench.file("checked.csv", text)
    ran, other = bench.run("check", tool, file), bench.run(tool, file)
    amiss = says_amiss(text, ran, other)
    bench.judge(f"check {tool} of {name}", (amiss, ran) if amiss else None, None)


def known_files(bench):
    """The tables of the other scripts have files of every fault."""
    for tool in TOOLS:
        for table in sorted([*glob.glob(f"{HERE}/rows/{tool}/*.txt"), f"{HERE}/hostile/{tool}.txt"]):
            if os.path.basename(table) not in ("runs.txt", "graphs.txt"):
                for case in cases_of(table):
                    compare(bench, tool, case.name, case.text)


def whole_texts(bench):
    """What stands below the status goes to standard output where all is well, and else to standard error."""
    for tool in TOOLS:
        for case in cases_of(f"{HERE}/rows/check/{tool}.txt"):
            ran = bench.run("check", tool, bench.file("checked.csv", case.text))
            said = case.wanted.out
            bench.judge(f"check {tool} of {case.name}", ran, Ran(2, b"", said) if case.wanted.status else Ran(0, said, b""))


def options():
    parser = argparse.ArgumentParser(usage=__doc__)
    parser.add_argument("program")
    parser.add_argument("--files", type=int, default=300)
    parser.add_argument("--seed", default="check")
    return parser.parse_args()


def main():
    given = options()
    with tempfile.TemporaryDirectory(prefix="checks-") as folder:
        bench = Bench(given.program, folder)
        whole_texts(bench)
        known_files(bench)
        for tool in TOOLS:
            for number in range(given.files):
                compare(bench, tool, f"random file {number}", random_file(tool, f"{given.seed} {number}"))
    print(f"{given.program}: {bench.cases} checks of files, {bench.failed} failed")
    return 1 if bench.failed else 0


if __name__ == "__main__":
    sys.exit(main())
