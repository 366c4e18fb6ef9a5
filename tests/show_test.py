#!/usr/bin/env python3
"""Tests of `seeing.py` and `show_cases.py`: that they refuse a page whose script shows something else than it should. Each page is page/show.html
over data of its own, with one change.

    tests/show_test.py

The script prints a line for each page that is judged wrongly, and then a count; its status is 0 where none is. It needs a browser, and no program.
"""

import os
import sys
import tempfile

sys.dont_write_bytecode = True
HERE = os.path.dirname(os.path.abspath(__file__))
TOP = os.path.dirname(HERE)
sys.path += [HERE, os.path.join(HERE, "hostile"), os.path.join(HERE, "second_reading"), os.path.join(TOP, "tools")]
from browser import NARROW, Browser, browser_here  # noqa: E402
from page import parts  # noqa: E402
from run import Bench  # noqa: E402
from seeing import GOES, differs  # noqa: E402
from show_cases import COLORS, OPENED  # noqa: E402
from showing import page_data  # noqa: E402

TEXT = (
    b"ring,4,multi,2\nwith,a,b\nthen,c\nstart\nclaim,0,2\nclaim,1,2\nwrite,1,2,5\npublish,1,2,2\nwrite,0,0,7\nwrite,0,1,8\npublish,0,0,1\npoll,a,2\n"
    b"complete,a,1\npoll,b,3\npoll,c,4\ncomplete,b,2\npoll,c,1\ncomplete,c,1\nclaim,0,2\nclaim,0,1\npoll,d,1\nretire,c\nhalt\n"
)
# What `READS` has to refuse: of each page its changes.
SHOWN = {
    "taken and completed change places": (('<td class="n">${h.taken}</td>', '<td class="n">${h.completed}</td>'),
                                          ('"least: " : ""}${h.completed}</td>', '"least: " : ""}${h.taken}</td>')),
    "a slot has no label": (("lines.forEach((line, i) => { out +=", "lines.forEach((line, i) => { if (k !== 1) out +="),),
    "the step before is shown": (("const r = records[step], before", "const r = records[Math.max(0, step - 1)], before"),),
    "the claims are of the start": (("claims: tellClaims }", "claims: () => tellClaims(records.find((r) => r.exchange)) }"),),
    "the room is greater": (("`room for ${r.room}`", "`room for ${r.room + 1}`"),),
    "front stands for next": (("`next claim: #${r.next}`", "`next claim: #${r.front}`"),),
    "next stands for front": (("`all below #${r.front}`", "`all below #${r.next}`"),),
    "no halt is told of claims": (('r.halted ? "Halted: no claim', 'false ? "Halted: no claim'),),
    "slots are by another producer": (("`by ${it.producer}`", "`by ${1 - it.producer}`"),),
    "letters change places": (('claimed: "c", written: "w"', 'claimed: "w", written: "c"'),),
    "slots have another pattern": (('`url(#${way})`);', '"url(#claimed)");'),),
    "what is free again looks published": (('way: "again" }, { ...it, lo: low', 'way: "published" }, { ...it, lo: low'),),
    "others hold claims up": (("(h.holds ? [k] : [])", "(h.gates ? [] : [k])"),),
    "others free slots": (('h.gates ? "yes" : "no"', 'h.gates ? "no" : "yes"'),),
    "fewer events are ready": (("h.taken + h.ready - 1", "h.ready - 1"),),
    "a handler is idle that waits": (('gating: "gating", idle', 'gating: "idle", idle'),),
    "claims are of the other producer": (("it.producer === p &&", "it.producer !== p &&"),),
    "another slot is touched": (("return [Number(f[2]), Number(f[2])];", "return [Number(f[1]), Number(f[1])];"),),
    "a track begins elsewhere": (("const a = turn(h.completed), b", "const a = turn(h.completed + 1), b"),),
    "the ring is called otherwise": (("took the events below ${h.taken} and", "took the events below ${h.completed} and"),),
    "the graph is called otherwise": (('" and frees slots" : ""', '"" : " and frees slots"'),),
    "the wrong producer is waited for": (("`Producer ${gap.producer} has", "`Producer ${1 - gap.producer} has"),),
    "a line has another number": (("<span>${r.record}</span>", "<span>${r.record + 1}</span>"),),
    "a refusal has no reason": (('REFUSED[reply[1]] ?? ""', '""'),),
}
# What `GOES` has to refuse.
LED = {
    "Home leads on": (("Home: 0, End", "Home: 1, End"),),
    "the button back does nothing": (("back: () => step - 1", "back: () => step"),),
    "the address is of the step": (("`#step=${r.record}`);\n}", "`#step=${step}`);\n}"),),
    "the first line is marked": (("line?.setAttribute(", '$("lines").firstChild.firstChild.setAttribute('),),
    "the page is too wide": (("main { padding: 10px; }", "main { padding: 10px; min-width: 500px; }"),),
}


def changed(page, changes):
    """The page with these changes, each where its text stands once."""
    for old, new in changes:
        if page.count(old) != 1:
            raise ValueError(f"page/show.html has {page.count(old)} times: {old}")
        page = page.replace(old, new)
    return page


def shown_cases(bench, browser, page):
    for name, changes in (("nothing", ()), *SHOWN.items()):
        is_so = differs(browser, changed(page, changes).encode(), TEXT)
        bench.judge(f"whether it is seen that {name}", is_so != (None, None), bool(changes))


def led_cases(bench, browser, page):
    for name, changes in (("nothing", ()), *LED.items()):
        browser.open(changed(page, changes).encode(), size=NARROW)
        bench.judge(f"whether it is seen that {name}", browser.tell(GOES) != [], bool(changes))


def other_cases(bench, browser, page):
    """Where a page opens, and its colors."""
    for changes, is_so in (((), ["record 7 of 23", 6, "#step=7"]), ((("r.record >= k", "r.record > k"),), ["record 8 of 23", 7, "#step=8"])):
        browser.open(changed(page, changes).encode(), "#step=7")
        bench.judge(f"where a page opens with {changes}", browser.tell(OPENED), is_so)
    for changes, is_weak in (((), False), ((("--ink: #e6ebf1", "--ink: #5e666f"),), True)):
        browser.open(changed(page, changes).encode(), "#step=12", scheme="dark")
        bench.judge(f"whether a dark page is faint with {changes}", browser.tell(COLORS)["weak"] != [], is_weak)


def main():
    path = browser_here()
    if not path:
        print("not here, and skipped: a browser")
        return 0
    with open(f"{TOP}/page/show.html", encoding="utf-8") as file:
        before, after = parts(file.read())
    with tempfile.TemporaryDirectory(prefix="shown-", ignore_cleanup_errors=True) as folder, Browser(path, folder) as browser:
        bench = Bench("", folder)
        for cases in (shown_cases, led_cases, other_cases):
            cases(bench, browser, before + page_data(TEXT) + after)
    print(f"changed pages: {bench.cases} tried, {bench.failed} failed")
    return 1 if bench.failed else 0


if __name__ == "__main__":
    sys.exit(main())
