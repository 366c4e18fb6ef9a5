#!/usr/bin/env python3
"""Compares the page that `show` writes with a second reading of the docs, and steps through pages in a browser, where Chromium is there.

    tests/show.py PROGRAM                   the examples, the files of rows/ and hostile/, and 200 random ones
    tests/show.py PROGRAM --files 10000     as many random ones as asked

A page has to be that of page/show.html around its data, and its data what the second reading says of the file. Its replies have to be the lines
of `drive`, and the run has to end as `drive` does.

In the browser each example, worked run and hostile file is gone through, and so are rings of up to 65,536 slots, 16 producers and 16 handlers. Each
step has to show what the second reading says: its record with the line of `drive`, the sentences, each cell of both tables, each slot with its
labels, the tracks, and what the pictures are called. Keys, buttons, the slider and a click have to lead to their step, after which the address and
the marked line are that step's, and a narrow page has to scroll no more than down. A page has to open at the step of its address. No card may move
as one steps, no row of the list be cut, and no text, light or dark, be too faint. The script prints a line for each failure, and then a count; its
status is 0 where none failed.
"""

import argparse
import contextlib
import json
import os
import sys
import tempfile
from itertools import chain

sys.dont_write_bytecode = True
HERE = os.path.dirname(os.path.abspath(__file__))
TOP = os.path.dirname(HERE)
sys.path += [HERE, os.path.join(HERE, "hostile"), os.path.join(HERE, "second_reading"), os.path.join(TOP, "tools")]
from browser import Browser, browser_here  # noqa: E402
from page import parts  # noqa: E402
from random_files import random_file  # noqa: E402
from run import Bench  # noqa: E402
from seeing import go_through  # noqa: E402
from show_cases import cases  # noqa: E402
from showing import page_data  # noqa: E402
from states import files_at_fault, hostile_files, worked_files  # noqa: E402

EXAMPLE = f"{TOP}/examples/two_producers.csv"
# Windows of a page: its first record, and how many.
WINDOWS = ((1, 2000), (1, 0), (9, 2), (2**64 - 1, 2**64 - 1))
# A larger page is not tried with each window, nor opened.
MOST_BYTES = 100_000


def page_parts():
    with open(f"{TOP}/page/show.html", encoding="utf-8") as file:
        return parts(file.read())


def data_of(text, around):
    """The data of a page that has these texts around it, or None."""
    before, after = (part.encode() for part in around)
    is_page = text.startswith(before) and text.endswith(after) and len(text) >= len(before) + len(after)
    return text[len(before) : len(text) - len(after)] if is_page else None


def judge_file(bench, name, text, around):
    """Judges what `show` does with a file, against `drive` and the second reading; answers the page."""
    file = bench.file("show.csv", text)
    drives = bench.run("drive", file)
    whole = None
    for first, steps in WINDOWS if len(text) < MOST_BYTES else WINDOWS[:1]:
        ran = bench.run("show", f"--from={first}", f"--steps={steps}", file)
        data = data_of(ran.out, around)
        bench.judge(f"how show of {name} ends", (ran.status, ran.err), (drives.status, drives.err))
        bench.judge(f"show of {name} from {first}, {steps} steps", data, page_data(text, first, steps).encode())
        if data is not None and (first, steps) == WINDOWS[0]:
            whole = ran.out
            replies = "".join(it.get("reply", "") for it in json.loads(data)["records"])
            if replies.count("\n") < steps:
                bench.judge(f"the replies in the page of {name}", replies.encode(), drives.out)
    return whole


def output_cases(bench, around):
    """A page goes to a file whole, also that of a file at fault, and then no part of it is left."""
    for name, text, status in (("a file", b"ring,2,single\nwith,a\nstart\nhalt\n", 0), ("a file at fault", b"ring,2,single\nwith,a\nstart\nhat\n", 2)):
        file, page = bench.file("show.csv", text), bench.file("page.html", b"old")
        ran = bench.run("show", "--output", page, file)
        bench.judge(f"the status of show --output of {name}", (ran.status, ran.out), (status, b""))
        with open(page, "rb") as it:
            bench.judge(f"the page of {name}", data_of(it.read(), around), page_data(text).encode())
        bench.judge(f"whether a part of the page of {name} is left", os.path.exists(f"{page}.part"), False)


def look(bench, files, browser):
    around = page_parts()
    with open(f"{TOP}/page/show.html", "rb") as file:
        bench.judge("page/show.html", bench.run("show", EXAMPLE).out, file.read())
    for name, text in chain(worked_files(), hostile_files()):
        page = judge_file(bench, name, text, around)
        if browser and page and len(text) < MOST_BYTES:
            go_through(bench, browser, name, page, text)
    for name, text in files_at_fault():
        judge_file(bench, name, text, around)
    output_cases(bench, around)
    for k in range(files):
        judge_file(bench, f"random file {k}", random_file("drive", f"show {k}"), around)
    if browser:
        cases(bench, browser)
    else:
        print("not here, and left out: a browser")


def main():
    parser = argparse.ArgumentParser(usage=__doc__)
    parser.add_argument("program", type=os.path.abspath)
    parser.add_argument("--files", type=int, default=200)
    given, path = parser.parse_args(), browser_here()
    with tempfile.TemporaryDirectory(prefix="show-", ignore_cleanup_errors=True) as folder:
        bench = Bench(given.program, folder)
        with Browser(path, folder) if path else contextlib.nullcontext() as browser:
            look(bench, given.files, browser)
    print(f"pages: {bench.cases} tried, {bench.failed} failed")
    return 1 if bench.failed else 0


if __name__ == "__main__":
    sys.exit(main())
