#!/usr/bin/env python3
"""Times how long a page of 2,000 steps takes to open in a browser, where Chromium is there: it has to be less than a second.

    tests/opening.py PROGRAM

A page opens with the lines around its step, and has the others soon after: they have to be all, in order. The best of some times counts, and
nothing should run beside it. The script prints a line for each failure, and then a count; its status is 0 where none failed.
"""

import os
import sys
import tempfile

sys.dont_write_bytecode = True
HERE = os.path.dirname(os.path.abspath(__file__))
sys.path += [HERE, os.path.join(HERE, "hostile")]
from browser import NARROW, Browser, browser_here  # noqa: E402
from run import Bench  # noqa: E402

ROUNDS = "".join(f"claim,0,1\nwrite,0,{k},{k}\npublish,0,{k},{k}\npoll,a,1\ncomplete,a,{k + 1}\n" for k in range(400))
RECORDS = f"ring,64,single\nwith,a\nstart\n{ROUNDS}"
MOST_MILLISECONDS = 1000
TIMES = 5
# What tells when the page was laid out, how many lines it had then, and which records it has a line for in the end.
OPENS = """<script>
const height = document.body.offsetHeight, took = performance.now(), seen = $("lines").children.length;
while ($("lines").children.length < records.length) addRest();
const lines = [...$("lines").children].map((it) => Number(it.textContent.match(/^\\d+/))), all = records.map((it) => it.record);
window.told = { took, seen, lines, all };
</script>"""


def opened(path, page):
    """What a page tells that is the first in a new browser."""
    with tempfile.TemporaryDirectory(prefix="opening-", ignore_cleanup_errors=True) as folder, Browser(path, folder) as browser:
        browser.open(page.replace(b"</body>", OPENS.encode() + b"</body>"), size=NARROW)
        return browser.tell("window.told")


def look(bench, path):
    page = bench.run("show", bench.file("long.csv", RECORDS.encode())).out
    told = [opened(path, page) for _ in range(TIMES)]
    bench.judge("how many pages opened", sum(it is not None for it in told), TIMES)
    best = min((it["took"] for it in told if it), default=MOST_MILLISECONDS)
    bench.judge(f"whether {best:.0f} milliseconds to open 2,000 steps are few", best < MOST_MILLISECONDS, True)
    for it in filter(None, told):
        bench.judge("whether lines are seen at once", it["seen"] > 0, True)
        bench.judge("the records that have a line", it["lines"], it["all"])
        bench.judge("whether the page has 2,000 records", len(it["all"]) >= 2000, True)


def main():
    path = browser_here()
    if not path:
        print("not here, and skipped: a browser")
        return 0
    with tempfile.TemporaryDirectory(prefix="opening-") as folder:
        bench = Bench(os.path.abspath(sys.argv[1]), folder)
        look(bench, path)
    print(f"openings: {bench.cases} looks, {bench.failed} failed")
    return 1 if bench.failed else 0


if __name__ == "__main__":
    sys.exit(main())
